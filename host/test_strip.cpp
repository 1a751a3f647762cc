// Strip: each way to miss, what may be taken off, counts of every size, and chains of runs undone.
#include <doctest/doctest.h>

#include "generate.hpp"
#include "programs.hpp"
#include "samples.hpp"

using namespace samples;

namespace {

// Node 2 is a fence as run adds it, between stores 0 and 1.
Request one_fence() {
    return {{{store, 1}, {store, 2}, {full_fence, 0}}, {{0, 2, 5}, {1, 0, 9}, {2, 1, 5}}, fence_rules, {{0, 1}}};
}

void check_strip(const Request &request, Number count, Number answer, Number weight) {
    for (const Program &program : programs) {
        CAPTURE(program.name);
        const Report report = program.strip(written(request), count, ample);
        CHECK(report.answer == answer);
        CHECK(report.place == 0);
        CHECK(report.fences == (answer == 0 ? request.nodes.size() - count : 0));
        CHECK(report.weight == weight);
    }
    CHECK(library::strip(written(request), count, ample).out ==
          reference::strip(written(request), count, ample).out);
}

}  // namespace

TEST_CASE("a fence is taken off and its edges joined, at the place of the first") {
    check_strip(one_fence(), 2, 0, 5);
    const Request left = read(library::strip(written(one_fence()), 2, ample).out).request;
    CHECK(left.edges.size() == 2);
    CHECK(left.edges[0].to == 1);
    CHECK(left.edges[0].weight == 5);
}

TEST_CASE("each way to miss") {
    Request request = one_fence();
    request.nodes[2] = {load, 0};
    check_strip(request, 2, 10, 0);  // no fence
    request = one_fence();
    request.edges.insert(request.edges.begin(), {1, 2, 5});
    check_strip(request, 2, 10, 0);  // two edges end there
    request = one_fence();
    request.edges.insert(request.edges.begin(), {2, 0, 5});
    check_strip(request, 2, 10, 0);  // two start there
    request = one_fence();
    request.edges.erase(request.edges.begin());
    check_strip(request, 2, 10, 0);  // none ends there
    request = one_fence();
    request.edges.pop_back();
    check_strip(request, 2, 10, 0);  // none starts there
    request = one_fence();
    request.edges = {{1, 0, 9}, {2, 2, 5}};
    check_strip(request, 2, 10, 0);  // one edge, not two
    request = one_fence();
    std::swap(request.edges[1], request.edges[2]);
    check_strip(request, 2, 10, 0);  // not the last edge
    request = one_fence();
    std::swap(request.edges[0], request.edges[2]);
    check_strip(request, 2, 10, 0);  // the last is the one that ends there
    request = one_fence();
    request.edges[0].weight = 4;
    check_strip(request, 2, 10, 0);  // weights differ
    request = one_fence();
    request.edges[1] = {0, 1, 9};
    check_strip(request, 2, 10, 0);  // the pair is an edge already
    request = one_fence();
    request.orders.push_back({2, 0});
    check_strip(request, 2, 10, 0);  // an order names the node
}

TEST_CASE("a fence in a loop joins to a self-edge, where that is free") {
    Request request = one_fence();
    request.edges = {{0, 2, 1}, {2, 0, 1}};
    check_strip(request, 2, 0, 1);
    request.edges.insert(request.edges.begin(), {0, 0, 1});
    check_strip(request, 2, 10, 0);
}

TEST_CASE("fences that stood in the first file come off too, down to none") {
    // Three fences in a ring.
    Request request{
        {{full_fence, 0}, {full_fence, 0}, {full_fence, 0}}, {{0, 1, 3}, {1, 2, 3}, {2, 0, 3}}, fence_rules, {}};
    check_strip(request, 2, 0, 3);
    check_strip(request, 1, 0, 6);
    check_strip(request, 0, 10, 0);  // the last has a self-edge
    request.edges.clear();
    check_strip(request, 0, 10, 0);
    request.nodes.clear();
    check_strip(request, 0, 0, 0);
}

TEST_CASE("counts of every size") {
    const Request request = one_fence();
    check_strip(request, 3, 0, 0);
    CHECK(library::strip(written(request), 3, ample).out == written(request));
    for (Number count :
         {Number{0}, Number{1}, Number{4}, Number{512}, Number{513}, Number{256} + 2, (Number{1} << 16) + 2,
          (Number{1} << 32) + 2, Number{1} << 63, (Number{1} << 63) + 3, ~Number{0}})
        check_strip(request, count, 10, 0);
}

TEST_CASE("a step that succeeds doesn't save one that fails") {
    Request request = reference::read(reference::run(written(graph_d()), ample).out).request;
    request.orders.clear();
    check_strip(request, 5, 0, 1);
    check_strip(request, 4, 0, 2);
    check_strip(request, 3, 10, 0);
}

TEST_CASE("chains of runs with other orders: a second run changes nothing, and strip gives the first graph back") {
    generate::Random random(7);
    unsigned stripped = 0;
    for (unsigned i = 0; i < 200; ++i) {
        Request request = generate::small(random);
        const Request first = request;
        const unsigned nodes = static_cast<unsigned>(first.nodes.size());
        for (unsigned runs = 0; runs < 3; ++runs) {
            request.orders = generate::orders(random, nodes, 5);
            const Report report = library::run(written(request), ample);
            if (report.answer != 0) break;
            const Report again = library::run(report.out, ample);
            CHECK(again.fences == 0);
            CHECK(again.out == report.out);
            request = read(report.out).request;
        }
        const Report off = library::strip(written(request), nodes, ample);
        if (off.answer != 0) continue;
        Request expected = first;
        expected.orders = request.orders;
        CHECK(off.out == written(expected));
        stripped += off.fences > 0;
    }
    CHECK(stripped > 50);
}
