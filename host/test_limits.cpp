// Each limit exactly, and one beyond it.
#include <doctest/doctest.h>

#include "fence.h"
#include "programs.hpp"
#include "samples.hpp"

using namespace samples;

namespace {

// n nodes in a line, then self-edges and steps back until there are so many edges.
Request packed(unsigned n, std::size_t edges) {
    Request request = line(n);
    for (unsigned i = 0; i < n && request.edges.size() < edges; ++i) request.edges.push_back({i, i, 1});
    for (unsigned i = 1; i < n && request.edges.size() < edges; ++i) request.edges.push_back({i, i - 1, 1});
    for (unsigned i = 2; i < n && request.edges.size() < edges; ++i) request.edges.push_back({i, 0, 1});
    REQUIRE(request.edges.size() == edges);
    return request;
}

void check_run(const Request &request, Number answer, Number place, Number fences) {
    for (const Program &program : programs) {
        CAPTURE(program.name);
        const Report report = program.run(written(request), ample);
        CHECK(report.answer == answer);
        CHECK(report.place == place);
        CHECK(report.fences == fences);
    }
    CHECK(library::run(written(request), ample).out == reference::run(written(request), ample).out);
}

}  // namespace

TEST_CASE("512 nodes and 1,024 edges, 32 rules and 32 orders: the longest file there is") {
    Request request = packed(512, 1024);
    request.rules.resize(32, request.rules[0]);
    request.orders.clear();
    for (unsigned i = 0; i < 32; ++i) request.orders.push_back({i + 1, i});
    request.rules.push_back({3, 0, 3, 0});  // everything is ordered
    request.rules.erase(request.rules.begin() + 2);
    CHECK(written(request).size() == FENCE_MAX_FILE);
    check_run(request, 0, 0, 0);
}

TEST_CASE("one beyond each limit") {
    check_run(line(513), 2, 512, 0);
    check_run(packed(500, 1025), 2, 500 + 1024, 0);
    Request request = line(3);
    request.rules.resize(32, request.rules[1]);
    check_run(request, 0, 0, 1);
    request.rules.resize(33, request.rules[1]);
    check_run(request, 2, 3 + 2 + 32, 0);
    request = line(40);
    request.orders.clear();
    for (unsigned i = 0; i < 32; ++i) request.orders.push_back({i, i + 1});
    request.rules.push_back({3, 0, 3, 0});
    check_run(request, 0, 0, 0);
    request.orders.push_back({33, 34});
    check_run(request, 2, 40 + 39 + 3 + 32, 0);
}

TEST_CASE("answer 9: nodes and edges, exactly and one beyond") {
    check_run(line(511), 0, 0, 1);
    check_run(line(512), 9, 0, 0);
    check_run(packed(500, 1023), 0, 0, 1);
    check_run(packed(500, 1024), 9, 0, 0);
    check_run(packed(511, 1023), 0, 0, 1);  // what is written has both limits
    check_run(packed(512, 1024), 9, 0, 0);
    Request request = line(510);
    request.orders = {{0, 1}, {5, 6}};
    check_run(request, 0, 0, 2);
    request.orders.push_back({10, 11});
    check_run(request, 9, 0, 0);
    request.orders.clear();
    check_run(request, 0, 0, 0);
}

TEST_CASE("answer 9 judges the chosen cut, even where another of its weight would fit") {
    // From 0 two edges of weight 1 lead over 1 and 2 to 3, and one of weight 2 on to 4.
    Request request = line(511);
    request.edges = {{0, 1, 1}, {0, 2, 1}, {1, 3, 9}, {2, 3, 9}, {3, 4, 2}};
    request.orders = {{0, 4}};
    check_run(request, 9, 0, 0);
    request.edges = {{3, 4, 2}, {0, 1, 1}, {0, 2, 1}, {1, 3, 9}, {2, 3, 9}};
    check_run(request, 0, 0, 1);
}

TEST_CASE("the greatest weights, and a cut of many edges") {
    Request request = line(32);
    request.orders.clear();
    for (unsigned i = 0; i < 31; ++i) request.orders.push_back({i, i + 1});
    for (Edge &edge : request.edges) edge.weight = 65535;
    check_run(request, 0, 0, 31);
    CHECK(library::run(written(request), ample).weight == 31 * 65535);
    check_run(star(255), 0, 0, 255);  // 257 nodes before, 512 with the fences
    check_run(star(256), 9, 0, 0);
}

TEST_CASE("a second run on 512 nodes changes nothing, and strip takes the fences off again") {
    const Bytes file = written(star(255)), fenced = library::run(file, ample).out;
    for (const Program &program : programs) {
        CAPTURE(program.name);
        CHECK(program.run(fenced, ample).out == fenced);
        CHECK(program.strip(fenced, 257, ample).out == file);
        CHECK(program.ask(fenced, 0, most_nodes).route.empty());
    }
}

TEST_CASE("around each multiple of 64, where a set of nodes needs one word more") {
    for (unsigned words = 1; words < 8; ++words) {
        for (unsigned n : {64 * words - 1, 64 * words, 64 * words + 1}) {
            CAPTURE(n);
            const Request request = packed(n, 2 * n);
            check_run(request, 0, 0, 1);
            CHECK(library::ask(written(request), 0, most_nodes).route.size() == n);
            const Bytes fenced = library::run(written(request), ample).out;
            CHECK(library::strip(fenced, n, ample).out == written(request));
        }
    }
}

TEST_CASE("a route past a turn that only seems to lead on") {
    for (unsigned n : {1, 2, 20, 56, 57, 504}) {
        const Bytes file = written(doubtful(n));
        const Shown shown = library::ask(file, 0, most_nodes);
        CHECK(shown.route.size() == n + 2);
        CHECK(shown.route == reference::ask(file, 0, most_nodes).route);
    }
}

TEST_CASE("the longest route has 512 nodes") {
    const Shown shown = library::ask(written(line(512)), 0, most_nodes);
    CHECK(shown.route.size() == 512);
    CHECK(shown.route == reference::ask(written(line(512)), 0, most_nodes).route);
}
