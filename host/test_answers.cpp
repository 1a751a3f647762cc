// Each answer of each operation, with its place, and which of several wins.
#include <doctest/doctest.h>

#include <functional>
#include <string>

#include "programs.hpp"
#include "samples.hpp"

using namespace samples;

namespace {

using Change = std::function<void(Request &)>;

Bytes changed(const Change &change) {
    Request request = graph_d();
    change(request);
    return written(request);
}

Bytes with(Bytes file, std::size_t at, std::uint8_t byte) {
    file.at(at) = byte;
    return file;
}

Bytes plus(Bytes file, const std::string &more) {
    file.insert(file.end(), more.begin(), more.end());
    return file;
}

// Answers 1 to 7 are the same for all three operations, whatever order, count and room are asked for.
void check_all(const Bytes &file, Number answer, Number place) {
    for (const Program &program : programs) {
        CAPTURE(program.name);
        for (std::size_t room : {std::size_t{0}, ample}) {
            const Report ran = program.run(file, room), stripped = program.strip(file, 99, room);
            const Shown asked = program.ask(file, 99, room);
            CHECK(ran.answer == answer);
            CHECK(ran.place == place);
            CHECK(stripped.answer == answer);
            CHECK(stripped.place == place);
            CHECK(asked.answer == answer);
            CHECK(asked.place == place);
        }
    }
}

const Bytes d = written(graph_d());

}  // namespace

TEST_CASE("answer 0: each operation on D") {
    for (const Program &program : programs) {
        CHECK(program.run(d, ample).answer == 0);
        CHECK(program.ask(d, 0, most_nodes).answer == 0);
        CHECK(program.strip(d, 4, ample).answer == 0);
    }
}

TEST_CASE("answer 1: what can't be read, and where") {
    check_all({}, 1, 0);
    check_all({'E'}, 1, 0);
    check_all(with(d, 0, 'X'), 1, 0);                               // unknown mark
    check_all(with(d, 41, 'n'), 1, 40);                             // known letters, other case
    check_all({'N', 'D', 0, 0, 'E', 'D', 0, 0}, 1, 4);              // cut short
    check_all({d.begin(), d.end() - 2}, 1, 82);                     // no EN: the file's length
    check_all({d.begin(), d.end() - 1}, 1, 82);                     // half an EN
    check_all(plus(d, "E"), 1, 84);                                 // bytes after EN
    check_all(plus(d, "EN"), 1, 84);                                // a second EN
    check_all(plus({'E', 'D', 0, 0, 0, 0, 1, 0}, "NDxxEN"), 1, 8);  // ND after ED
}

TEST_CASE("answer 2: the first record beyond a limit, over all marks") {
    Request request = line(513);
    check_all(written(request), 2, 512);
    request = nothing();
    request.rules.resize(33, request.rules[0]);
    request.orders.resize(33, {0, 0});
    check_all(written(request), 2, 32);
}

TEST_CASE("answer 3: nodes") {
    check_all(changed([](Request &r) { r.nodes[2].kind = 3; }), 3, 2);
    check_all(changed([](Request &r) { r.nodes[3].kind = 255; }), 3, 3);
    check_all(changed([](Request &r) { r.nodes[1] = {full_fence, 1}; }), 3, 1);
}

TEST_CASE("answer 4: edges") {
    check_all(changed([](Request &r) { r.edges[1].from = 4; }), 4, 5);
    check_all(changed([](Request &r) { r.edges[2].to = 4; }), 4, 6);
    check_all(changed([](Request &r) { r.edges[2].to = 0x103; }), 4, 6);
    check_all(changed([](Request &r) { r.edges[0].weight = 0; }), 4, 4);
    check_all(changed([](Request &r) { r.edges.push_back({1, 2, 9}); }), 4, 7);  // another weight, the same pair
    check_all(changed([](Request &r) { r.edges.insert(r.edges.end(), 2, {0, 1, 3}); }), 4, 7);
}

TEST_CASE("answer 5: rules") {
    for (const Rule &rule : std::vector<Rule>{{4, 0, 3, 0},
                                              {3, 0, 4, 0},
                                              {3, 1, 2, 0},
                                              {3, 0, 2, 1},
                                              {0, 2, 0, 1},
                                              {0, 0, 0, 1},
                                              {0, 1, 0, 0},
                                              {0, 1, 0, 3},
                                              {3, 0, 0, 2},
                                              {2, 0, 1, 2}})
        check_all(changed([&](Request &r) { r.rules.insert(r.rules.begin() + 1, rule); }), 5, 8);
}

TEST_CASE("answer 6: orders") {
    check_all(changed([](Request &r) { r.orders[1].second = 4; }), 6, 12);
    check_all(changed([](Request &r) { r.orders[1].first = 0x100; }), 6, 12);
    check_all(changed([](Request &r) { r.orders[2] = {1, 1}; }), 6, 13);
    check_all(changed([](Request &r) { r.orders.insert(r.orders.end(), 2, {0, 1}); }), 6, 14);
}

TEST_CASE("answer 7: each of the two rules, also where there is nothing to order") {
    check_all(changed([](Request &r) { r.rules.erase(r.rules.begin()); }), 7, 0);
    check_all(changed([](Request &r) { r.rules.erase(r.rules.begin() + 1); }), 7, 0);
    check_all(changed([](Request &r) { r.rules = {{3, 0, 3, 0}}; }), 7, 0);
    check_all({'E', 'N'}, 7, 0);
}

TEST_CASE("the lowest answer wins, and within it the earliest place") {
    Request request = graph_d();
    request.rules.clear();
    check_all(written(request), 7, 0);
    request.orders.insert(request.orders.begin(), 2, {1, 1});
    check_all(written(request), 6, 7);
    request.rules = {{3, 0, 2, 0}, {4, 0, 0, 0}, {5, 0, 0, 0}};
    check_all(written(request), 5, 8);
    request.edges[2].weight = 0;
    check_all(written(request), 4, 6);
    request.nodes[3].kind = 9;
    check_all(written(request), 3, 3);
    request.rules.resize(33, {9, 9, 9, 9});
    check_all(written(request), 2, 39);
    check_all(plus(written(request), "x"), 1, written(request).size());
}

TEST_CASE("answer 8: ask comes before 11 with it") {
    for (const Program &program : programs) {
        for (Number order : {Number{3}, Number{4}, Number{1} << 32, Number{1} << 63, ~Number{0}}) {
            CHECK(program.ask(d, order, most_nodes).answer == 8);
            CHECK(program.ask(d, order, 0).answer == 8);
        }
        CHECK(program.ask(written(nothing()), 0, most_nodes).answer == 8);
    }
}

TEST_CASE("answer 9 comes before 11, 10 comes before 11") {
    for (const Program &program : programs) {
        CHECK(program.run(written(line(512)), 0).answer == 9);
        CHECK(program.strip(d, 3, 0).answer == 10);
    }
}

TEST_CASE("answer 11: one byte or entry too few") {
    for (const Program &program : programs) {
        CHECK(program.run(d, 107).answer == 11);
        CHECK(program.run(d, 108).answer == 0);
        CHECK(program.strip(d, 4, 83).answer == 11);
        CHECK(program.strip(d, 4, 84).answer == 0);
        CHECK(program.ask(d, 0, 511).answer == 11);
        CHECK(program.ask(d, 2, 511).answer == 11);  // held, and refused all the same
        CHECK(program.ask(d, 2, 512).answer == 0);
    }
}
