// The scope's samples, P1 to P12 and "run only", on reference and library alike.
#include <doctest/doctest.h>

#include <string>

#include "programs.hpp"
#include "samples.hpp"

using namespace samples;

namespace {

// What run chose, read off the nodes that it added: the numbers of the edges that lead to them.
Cut cut_in(const Report &report, std::size_t old_nodes) {
    const Request out = read(report.out).request;
    Cut cut;
    for (unsigned i = 0; i < out.edges.size(); ++i)
        if (out.edges[i].to >= old_nodes) cut.push_back(i);
    return cut;
}

void check_cut(const Request &request, const Cut &cut, Number weight) {
    for (const Program &program : programs) {
        CAPTURE(program.name);
        const Bytes file = written(request);
        const Report report = program.run(file, ample);
        CHECK(report.answer == 0);
        CHECK(report.place == 0);
        CHECK(report.fences == cut.size());
        CHECK(report.weight == weight);
        CHECK(report.out.size() == file.size() + 12 * cut.size());
        CHECK(cut_in(report, request.nodes.size()) == cut);
    }
}

void check_run_refused(const Request &request, Number answer, Number place) {
    for (const Program &program : programs) {
        CAPTURE(program.name);
        const Report report = program.run(written(request), ample);
        CHECK(report.answer == answer);
        CHECK(report.place == place);
    }
}

// What fence-list prints: run's five numbers, then a line for each fence.
std::string listed(const Program &program, const Bytes &file) {
    const Report report = program.run(file, ample);
    std::string text;
    for (Number number : {report.answer, report.place, report.fences, report.weight})
        text += std::to_string(number) + " ";
    text += std::to_string(report.out.size()) + "\n";
    const Request out = read(report.out).request;
    for (std::size_t node = out.nodes.size() - report.fences; node < out.nodes.size(); ++node) {
        Edge whole{0, 0, 0};
        for (const Edge &edge : out.edges) {
            if (edge.to == node) whole.from = edge.from, whole.weight = edge.weight;
            if (edge.from == node) whole.to = edge.to;
        }
        for (std::size_t number : {node, std::size_t{whole.from}, std::size_t{whole.to}})
            text += std::to_string(number) + " ";
        text += std::to_string(whole.weight) + "\n";
    }
    return text;
}

}  // namespace

TEST_CASE("D has 84 bytes") { CHECK(written(graph_d()).size() == 84); }

TEST_CASE("P1: D's cut is {1, 2}, weight 2, and order (0, 1) is held") {
    check_cut(graph_d(), {1, 2}, 2);
    for (const Program &program : programs) CHECK(program.ask(written(graph_d()), 2, ample).route.empty());
}

TEST_CASE("P2 and P3: edge 0 of weight 2 is a tie, of weight 1 the least") {
    Request request = graph_d();
    request.edges[0].weight = 2;
    check_cut(request, {0}, 2);
    request.edges[0].weight = 1;
    check_cut(request, {0}, 1);
}

TEST_CASE("P4: with the rule store 1 to load 1 nothing is open") {
    Request request = graph_d();
    request.rules.push_back({0, 1, 1, 1});
    check_cut(request, {}, 0);
}

TEST_CASE("P5: without a route nothing is open") {
    Request request = graph_d();
    request.orders = {{2, 0}};
    check_cut(request, {}, 0);
}

TEST_CASE("P6: the diamond's cut is {0}: its other route has a fence") { check_cut(diamond(), {0}, 1); }

TEST_CASE("P7: the loop's cut is {0}") { check_cut(loop(), {0}, 1); }

TEST_CASE("a route that a fence orders is left alone: weight 2, where all routes of the order would take 32") {
    // From 1 one edge leads straight to the end, three others there over the fence and node 3.
    Request request{{{store, 1}, {store, 2}, {full_fence, 0}, {store, 3}, {load, 4}},
                    {{0, 1, 50}, {1, 2, 40}, {2, 3, 40}, {3, 4, 30}, {1, 4, 2}},
                    fence_rules,
                    {{0, 4}}};
    check_cut(request, {4}, 2);
    request.orders.push_back({3, 4});  // behind the fence, so it takes the same edges as all routes would
    check_cut(request, {3, 4}, 32);
}

TEST_CASE("the one unordered route of many that meet is found, however many differ in what they order") {
    // With 8 forks there are over 1,000 pairs of a node and such a set; beyond 512 the library walks.
    for (unsigned n : {1, 3, 8}) check_cut(forks(n), {4 * n - 2}, 2);
}

TEST_CASE("P8: no nodes, 14 bytes out") {
    check_cut(nothing(), {}, 0);
    for (const Program &program : programs) CHECK(program.run(written(nothing()), ample).out.size() == 14);
}

TEST_CASE("P9 and P10: D's order 0 shows 0, 1, 2 and order 2 is held") {
    for (const Program &program : programs) {
        CAPTURE(program.name);
        CHECK(program.ask(written(graph_d()), 0, most_nodes).route == Route{0, 1, 2});
        CHECK(program.ask(written(graph_d()), 2, most_nodes).route.empty());
    }
}

TEST_CASE("ask shows the first route by node numbers, whatever the order of the edges") {
    // edge numbers alone would lead from 0 to 2 first, fewest nodes from 0 to 4, and from 1 on the edge to 3 stands
    // before that to 2
    Request request{{{store, 1}, {store, 2}, {store, 3}, {store, 4}, {load, 5}},
                    {{0, 2, 1}, {2, 4, 1}, {0, 4, 1}, {0, 1, 1}, {1, 3, 1}, {3, 4, 1}, {1, 2, 1}},
                    fence_rules,
                    {{0, 4}}};
    for (const Program &program : programs) {
        CAPTURE(program.name);
        CHECK(program.ask(written(request), 0, most_nodes).route == Route{0, 1, 2, 4});
    }
    // with a fence as node 2 the first route that does not order its ends is a later one
    request.nodes[2] = {full_fence, 0};
    for (const Program &program : programs) {
        CAPTURE(program.name);
        CHECK(program.ask(written(request), 0, most_nodes).route == Route{0, 1, 3, 4});
    }
}

TEST_CASE("P11 and P12: D with its fences stripped to 4 is D; D stripped to 3 is refused") {
    for (const Program &program : programs) {
        CAPTURE(program.name);
        const Report stripped = program.strip(program.run(written(graph_d()), ample).out, 4, ample);
        CHECK(stripped.answer == 0);
        CHECK(stripped.fences == 2);
        CHECK(stripped.weight == 2);
        CHECK(stripped.out == written(graph_d()));
        CHECK(program.strip(written(graph_d()), 3, ample).answer == 10);
    }
}

TEST_CASE("run only: repeated order, equal ends, a fence rule missing") {
    Request request = graph_d();
    request.orders.push_back({0, 1});
    check_run_refused(request, 6, 14);
    request = graph_d();
    request.orders = {{1, 1}};
    check_run_refused(request, 6, 11);
    request = graph_d();
    request.rules.erase(request.rules.begin() + 1);
    check_run_refused(request, 7, 0);
}

TEST_CASE("run only: 512 nodes with an open order, 511 with a cut of one edge, 513 nodes") {
    check_run_refused(line(512), 9, 0);
    check_cut(line(511), {0}, 1);
    check_run_refused(line(513), 2, 512);
}

TEST_CASE("fence-list's lines for D and for what run made of it") {
    for (const Program &program : programs) {
        CAPTURE(program.name);
        CHECK(listed(program, written(graph_d())) == "0 0 2 2 108\n4 1 2 1\n5 1 3 1\n");
        CHECK(listed(program, program.run(written(graph_d()), ample).out) == "0 0 0 0 108\n");
    }
}
