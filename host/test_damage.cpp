// Damaged files, taken through all damages of one kind; random ones are compared in compare_main.cpp.
#include <doctest/doctest.h>

#include "compare.hpp"
#include "programs.hpp"
#include "samples.hpp"

using namespace samples;

namespace {

const Bytes d = written(graph_d());

void compare_all(Comparison &comparison, const Bytes &file) {
    comparison.run(file, ample);
    comparison.ask(file, 1, most_nodes);
    comparison.strip(file, 4, ample);
}

// Where the records of D start, and where D ends.
std::vector<std::size_t> starts() {
    std::vector<std::size_t> at{0};
    for (std::size_t size : {4, 4, 4, 4, 8, 8, 8, 6, 6, 6, 6, 6, 6, 6, 2}) at.push_back(at.back() + size);
    return at;
}

}  // namespace

TEST_CASE("cut off at each byte: answer 1 at the record that is cut") {
    for (std::size_t size = 0; size < d.size(); ++size) {
        std::size_t record = 0;
        for (std::size_t start : starts())
            if (start <= size) record = start;
        for (const Program &program : programs) {
            const Report report = program.run({d.begin(), d.begin() + size}, ample);
            CHECK(report.answer == 1);
            CHECK(report.place == record);
        }
    }
}

TEST_CASE("each byte changed to each of many values") {
    Comparison comparison;
    for (std::size_t at = 0; at < d.size(); ++at) {
        for (std::uint8_t value :
             Bytes{0, 1, 2, 3, 4, 5, 9, 64, 127, 128, 254, 255, 'N', 'D', 'E', 'R', 'U', 'O'}) {
            Bytes file = d;
            file[at] = value;
            compare_all(comparison, file);
        }
    }
    CHECK(comparison.calls() == 84 * 18 * 3);
    CHECK(comparison.differences() == 0);
}

TEST_CASE("each byte taken out, and each byte doubled") {
    Comparison comparison;
    for (std::size_t at = 0; at < d.size(); ++at) {
        Bytes file = d;
        file.erase(file.begin() + at);
        compare_all(comparison, file);
        file = d;
        file.insert(file.begin() + at, d[at]);
        compare_all(comparison, file);
    }
    CHECK(comparison.differences() == 0);
}

TEST_CASE("each record moved to each place, and left out") {
    Comparison comparison;
    const std::vector<std::size_t> at = starts();
    for (std::size_t moved = 0; moved + 1 < at.size(); ++moved) {
        const Bytes record(d.begin() + at[moved], d.begin() + at[moved + 1]);
        Bytes rest = d;
        rest.erase(rest.begin() + at[moved], rest.begin() + at[moved + 1]);
        compare_all(comparison, rest);
        for (std::size_t to = 0; to <= rest.size(); to += 2) {
            Bytes file = rest;
            file.insert(file.begin() + to, record.begin(), record.end());
            compare_all(comparison, file);
        }
    }
    CHECK(comparison.differences() == 0);
}

TEST_CASE("two faults at once: every pair of spoiled fields") {
    Comparison comparison;
    for (std::size_t a = 0; a < d.size(); a += 3) {
        for (std::size_t b = a + 1; b < d.size(); b += 3) {
            Bytes file = d;
            file[a] = 77;
            file[b] = 3;
            comparison.run(file, ample);
        }
    }
    CHECK(comparison.differences() == 0);
}

TEST_CASE("files far longer than any request") {
    Comparison comparison;
    for (const char *mark : {"ND", "RU", "EN", "xx"}) {
        Bytes file;
        while (file.size() < 70000) file.insert(file.end(), mark, mark + 2);
        compare_all(comparison, file);
    }
    Request request;
    request.nodes.resize(20000, {store, 0});
    compare_all(comparison, written(request));
    CHECK(comparison.differences() == 0);
}
