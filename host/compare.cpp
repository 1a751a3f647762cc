// See compare.hpp.
#include "compare.hpp"

#include <cstdio>
#include <exception>

#include "library.hpp"

using reference::Bytes;
using reference::Number;
using reference::Report;
using reference::Shown;

namespace {

std::string text(const Report &r) {
    std::string s = std::to_string(r.answer) + " " + std::to_string(r.place) + " " + std::to_string(r.fences) +
                    " " + std::to_string(r.weight) + " " + std::to_string(r.out.size()) + ":";
    static const char digits[] = "0123456789abcdef";
    for (std::uint8_t byte : r.out) s += digits[byte / 16], s += digits[byte % 16];
    return s;
}

std::string text(const Shown &s) {
    std::string all =
        std::to_string(s.answer) + " " + std::to_string(s.place) + " " + std::to_string(s.route.size()) + ":";
    for (unsigned node : s.route) all += " " + std::to_string(node);
    return all;
}

// Library calls may throw what library.cpp found wrong; then that is the text.
template <class Call>
std::string text_of(Call call) {
    try {
        return text(call());
    } catch (const std::exception &wrong) {
        return wrong.what();
    }
}

Report reference_run(const Bytes &file, Number, std::size_t room) { return reference::run(file, room); }
Report library_run(const Bytes &file, Number, std::size_t room) { return library::run(file, room); }

void print_difference(const char *operation, const Bytes &file, Number argument, std::size_t room,
                      const std::string &expected, const std::string &got) {
    std::printf("DIFFERENCE %s argument %llu room %zu file ", operation, static_cast<unsigned long long>(argument),
                room);
    for (std::uint8_t byte : file) std::printf("%02x", byte);
    std::printf("\n  reference %s\n  library   %s\n", expected.c_str(), got.c_str());
}

}  // namespace

std::size_t Comparison::reached_[3][12] = {};

template <class Outcome>
Outcome Comparison::hold(Operation operation, const Bytes &file, Number argument, std::size_t room,
                         Outcome (*theirs)(const Bytes &, Number, std::size_t),
                         Outcome (*ours)(const Bytes &, Number, std::size_t)) {
    static const char *names[] = {"run", "ask", "strip"};
    ++calls_;
    const Outcome expected = theirs(file, argument, room);
    ++reached_[operation][expected.answer];
    const std::string got = text_of([&] { return ours(file, argument, room); });
    if (got != text(expected) && ++differences_ <= 3)
        print_difference(names[operation], file, argument, room, text(expected), got);
    return expected;
}

Report Comparison::run(const Bytes &file, std::size_t room) {
    return hold(run_operation, file, 0, room, reference_run, library_run);
}

void Comparison::ask(const Bytes &file, Number order, std::size_t room) {
    hold(ask_operation, file, order, room, reference::ask, library::ask);
}

void Comparison::strip(const Bytes &file, Number count, std::size_t room) {
    hold(strip_operation, file, count, room, reference::strip, library::strip);
}
