// The reference itself: its definitions one by one, its two ways to a cut against a third, most literal one, and
// the plausible programs that are wrong.
#include <doctest/doctest.h>

#include <algorithm>

#include "generate.hpp"
#include "programs.hpp"
#include "samples.hpp"

using namespace samples;

namespace {

bool has_unordered_route(const Request &request, const Cut &without, const Order &order) {
    Request left = request;
    left.edges.clear();
    for (unsigned i = 0; i < request.edges.size(); ++i)
        if (std::find(without.begin(), without.end(), i) == without.end()) left.edges.push_back(request.edges[i]);
    return !first_unordered(left, order).empty();
}

// The definition's own words: every set of edges, and whether the graph without it still has a route that does not
// order its ends.
Cut literal_cut(const Request &request) {
    Cut best;
    bool any = false;
    for (unsigned set = 0; set >> request.edges.size() == 0; ++set) {
        Cut cut;
        for (unsigned i = 0; i < request.edges.size(); ++i)
            if (set >> i & 1) cut.push_back(i);
        if (std::any_of(request.orders.begin(), request.orders.end(),
                        [&](const Order &order) { return has_unordered_route(request, cut, order); }))
            continue;
        const Number weight = weight_of(request, cut), least = weight_of(request, best);
        if (!any || weight < least || (weight == least && cut < best)) best = cut;
        any = true;
    }
    return best;
}

Cut cut_of(const Program &program, const Request &request) {
    const Report report = program.run(written(request), ample);
    REQUIRE(report.answer == 0);
    const Request out = read(report.out).request;
    Cut cut;
    for (unsigned i = 0; i < request.edges.size(); ++i)
        if (out.edges[i].to != request.edges[i].to) cut.push_back(i);
    return cut;
}

}  // namespace

TEST_CASE("a rule's sides match under one assignment, and 1 and 2 may be the same address") {
    const Node store_7{store, 7}, store_9{store, 9}, load_7{load, 7}, load_0{load, 0}, fence{full_fence, 0};
    CHECK(fits({0, 1, 0, 2}, store_7, store_9));
    CHECK(fits({0, 1, 0, 2}, store_7, store_7));
    CHECK(fits({0, 1, 0, 1}, store_7, store_7));
    CHECK_FALSE(fits({0, 1, 0, 1}, store_7, store_9));
    CHECK(fits({0, 1, 1, 1}, store_7, load_7));
    CHECK_FALSE(fits({0, 1, 1, 1}, store_7, load_0));
    CHECK_FALSE(fits({0, 1, 1, 2}, load_7, store_7));
    CHECK(fits({3, 0, 3, 0}, fence, fence));
    CHECK(fits({3, 0, 1, 1}, fence, load_0));
    CHECK(fits({2, 0, 3, 0}, fence, store_9));
    CHECK_FALSE(fits({2, 0, 3, 0}, load_0, store_9));
}

TEST_CASE("there are 20 legal rules, and each of the 625 small rules is judged as the words say") {
    CHECK(generate::legal_rules().size() == 20);
    unsigned legal = 0;
    for (unsigned i = 0; i < 625; ++i) {
        Request request = nothing();
        request.rules.push_back({i / 125, i / 25 % 5, i / 5 % 5, i % 5});
        const Refusal refusal = read(written(request)).refusal;
        if (refusal.answer == 0) ++legal;
        CHECK((refusal.answer == 0 || (refusal.answer == 5 && refusal.place == 2)));
        CHECK(library::run(written(request), ample).answer == refusal.answer);
    }
    CHECK(legal == 20);
}

TEST_CASE("what is written is read again as it was") {
    generate::Random random(3);
    for (unsigned i = 0; i < 300; ++i) {
        const Bytes file = written(generate::small(random));
        CHECK(written(read(file).request) == file);
    }
}

TEST_CASE("the two ways to a cut agree with the most literal one") {
    generate::Random random(11);
    for (unsigned i = 0; i < 1500; ++i) {
        const Request request = generate::small(random);
        const Cut decided = cut_by_deciding(request);
        if (chosen_cut(request) != decided) FAIL("subsets and deciding differ at " << i);
        if (request.edges.size() <= 8 && literal_cut(request) != decided) FAIL("the literal cut differs at " << i);
    }
}

TEST_CASE("wrong program 1: variables 1 and 2 as different addresses") {
    Request request{{{store, 7}, {store, 7}}, {{0, 1, 1}}, d_rules, {{0, 1}}};
    for (const Program &program : programs) CHECK(cut_of(program, request).empty());
}

TEST_CASE("wrong program 2: nodes seen for good") {
    // Node 2 is reached first over node 1, a fence, then straight from 0: only the second route is unordered.
    const Request request{{{store, 1}, {full_fence, 0}, {store, 2}, {load, 3}},
                          {{0, 1, 1}, {1, 2, 1}, {0, 2, 1}, {2, 3, 1}},
                          fence_rules,
                          {{0, 3}}};
    for (const Program &program : programs) {
        CHECK(program.ask(written(request), 0, most_nodes).route == Route{0, 2, 3});
        CHECK(cut_of(program, request) == Cut{2});
    }
}

TEST_CASE("wrong program 3: a rule between the two ends only") {
    Request request = graph_d();
    request.rules.push_back({0, 1, 1, 1});
    for (const Program &program : programs) CHECK(program.ask(written(request), 1, most_nodes).route.empty());
}

TEST_CASE("wrong program 4: each open order cut by itself") {
    // Alone, (0, 2) is cut at edge 0 and (1, 3) at edge 1; edge 1 does for both.
    Request request = line(4);
    request.orders = {{0, 2}, {1, 3}};
    for (const Program &program : programs) CHECK(cut_of(program, request) == Cut{1});
}

TEST_CASE("wrong program 5: fewest edges") {
    for (const Program &program : programs) CHECK(cut_of(program, graph_d()) == Cut{1, 2});
}
