// fence.hpp: the C++17 face of fence.h. Header only; link libfence.a.
//
//     std::vector<std::uint8_t> file = ...;
//     if (auto done = fence::run(file))
//         use(done->file, done->fences, done->weight);
//     else
//         std::cerr << done.refusal().sentence() << " (place " << done.refusal().place << ")\n";
//
// Each operation gives a value or a refusal. The C functions throw nothing and call nothing back; here only the
// vectors allocate, after the C function has returned, and value() throws where there is none.
// fence_request.hpp builds such files, reads them, says more of a refusal, and draws them.
#ifndef FENCE_HPP
#define FENCE_HPP

#if __cplusplus < 201703L
#error "fence.hpp needs C++17"
#else

#include <array>
#include <cstddef>
#include <cstdint>
#include <cstdlib>
#include <stdexcept>
#include <string>
#include <type_traits>
#include <utility>
#include <variant>
#include <vector>

#include "fence.h"

namespace fence {

// A request file that someone else owns, and keeps for the call: a vector, std::array or span of bytes, or a
// pointer and a size. No array of C: one made from a string has a byte too many.
class Bytes {
public:
    Bytes(const std::uint8_t *data, std::size_t size) : data_(size ? data : nothing()), size_(size) {}
    template <class Row, class = std::enable_if_t<std::is_convertible_v<
                             decltype(std::declval<const Row &>().data()), const std::uint8_t *> > >
    Bytes(const Row &row) : Bytes(row.data(), row.size()) {}

    const std::uint8_t *data() const { return data_; }
    std::size_t size() const { return size_; }

private:
    // An empty vector may have no address; the library gets one all the same.
    static const std::uint8_t *nothing() {
        static const std::uint8_t byte = 0;
        return &byte;
    }

    const std::uint8_t *data_;
    std::size_t size_;
};

// Why a file was refused: the answer's number, where, and the number in words.
struct Refusal {
    std::uint64_t answer;
    std::uint64_t place;  // of answer 1: a byte offset; of 2 to 6: a record's number; else 0

    const char *sentence() const { return fence_sentence(answer); }
};

// What value() throws.
class Refused : public std::runtime_error {
public:
    explicit Refused(const Refusal &why)
        : std::runtime_error("answer " + std::to_string(why.answer) + ", place " + std::to_string(why.place) +
                             ": " + why.sentence()),
          why_(why) {}

    const Refusal &refusal() const { return why_; }

private:
    Refusal why_;
};

namespace detail {

// Programs built without exceptions end here instead.
template <class Exception>
[[noreturn]] void raise(const Exception &exception) {
#ifdef __cpp_exceptions
    throw exception;
#else
    static_cast<void>(exception);
    std::abort();
#endif
}

}  // namespace detail

// A value, or the refusal that stands in its place.
template <class Value>
class [[nodiscard]] Result {
public:
    Result(Value value) : either_(std::move(value)) {}
    Result(Refusal refusal) : either_(refusal) {}

    explicit operator bool() const { return std::holds_alternative<Value>(either_); }

    // The value; where there is none, a Refused is thrown.
    const Value &value() const & {
        if (!*this) detail::raise(Refused(refusal()));
        return **this;
    }
    Value value() && {
        if (!*this) detail::raise(Refused(refusal()));
        return std::move(*std::get_if<Value>(&either_));
    }

    // Only where there is a value.
    const Value &operator*() const { return *std::get_if<Value>(&either_); }
    const Value *operator->() const { return std::get_if<Value>(&either_); }

    // Only where there is none.
    const Refusal &refusal() const { return *std::get_if<Refusal>(&either_); }

private:
    std::variant<Value, Refusal> either_;
};

// A file as run or strip wrote it.
struct Written {
    std::vector<std::uint8_t> file;
    std::uint64_t fences;  // added by run, removed by strip
    std::uint64_t weight;  // of the edges cut by run, joined again by strip
};

// What ask found out.
struct Asked {
    std::vector<std::uint16_t> route;  // a route that doesn't order its ends; empty where the order is held

    bool held() const { return route.empty(); }
};

namespace detail {

using Room = std::array<std::uint8_t, FENCE_MAX_FILE>;

inline Result<Written> written(const fence_report &report, const Room &room) {
    if (report.answer != 0) return Refusal{report.answer, report.place};
    return Written{{room.begin(), room.begin() + report.length}, report.fences, report.weight};
}

}  // namespace detail

// Adds the lightest fences that make every order held. Fences that are there already stay where they are.
inline Result<Written> run(Bytes file) {
    detail::Room room;
    return detail::written(fence_run(file.data(), file.size(), room.data(), room.size()), room);
}

// Asks whether one order is held.
inline Result<Asked> ask(Bytes file, std::uint64_t order) {
    std::array<std::uint16_t, FENCE_ROUTE_ENTRIES> room;
    const fence_route found = fence_ask(file.data(), file.size(), order, room.data(), room.size());
    if (found.answer != 0) return Refusal{found.answer, found.place};
    return Asked{{room.begin(), room.begin() + found.length}};
}

// Takes added fences off until `count` nodes are left.
inline Result<Written> strip(Bytes file, std::uint64_t count) {
    detail::Room room;
    return detail::written(fence_strip(file.data(), file.size(), count, room.data(), room.size()), room);
}

// Strips to `count` nodes, then runs: the lightest fences for the file's orders of today, where run alone would
// keep what earlier orders brought. The numbers are those of this run.
inline Result<Written> rerun(Bytes file, std::uint64_t count) {
    const Result<Written> stripped = strip(file, count);
    return stripped ? run(stripped->file) : stripped;
}

}  // namespace fence

#endif
#endif
