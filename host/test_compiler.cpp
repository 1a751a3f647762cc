// What docs/FROM-A-COMPILER.md says may be done to a graph, held against the library's answers on drawn ones.
#include <doctest/doctest.h>

#include <algorithm>
#include <set>

#include "fence_request.hpp"
#include "generate.hpp"

namespace {

using fence::load;
using fence::store;

bool neutral(fence::Request r) { return fence::neutral(r.rules).value(); }

fence::Request lists(const generate::Request &request) {
    return fence::Request::read(reference::written(request)).value();
}

// The two rules that every file needs, and others. Most of these have a load of any address on one side or on both:
// where two meet in a load, it makes a chain.
std::vector<generate::Rule> rules_of_loads(generate::Random &random) {
    static const std::vector<generate::Rule> loads = {
        {0, 1, 1, 2}, {1, 1, 0, 2}, {1, 1, 1, 2}, {1, 1, 3, 0}, {3, 0, 1, 1}};
    std::vector<generate::Rule> rules = {{3, 0, 2, 0}, {2, 0, 3, 0}};
    for (unsigned more = random.between(1, 4); more > 0; --more) {
        const auto &from = random.chance(70) ? loads : generate::legal_rules();
        rules.push_back(from[random.below(from.size())]);
    }
    return rules;
}

// A line of accesses and an order from its first to its last: with one route, a node more or less often decides.
generate::Request line(generate::Random &random) {
    const unsigned n = random.between(3, 5);
    generate::Request drawn{{}, {}, {}, {{0, n - 1}}};
    for (unsigned node = 0; node < n; ++node) {
        const unsigned kind = random.below(2);
        drawn.nodes.push_back({kind, random.below(2)});
        if (node > 0) drawn.edges.push_back({node - 1, node, 1});
    }
    return drawn;
}

fence::Request small_or_line(generate::Random &random, const std::vector<generate::Rule> &rules) {
    generate::Request drawn = random.chance(50) ? generate::small(random) : line(random);
    drawn.rules = rules;
    return lists(drawn);
}

// The same graph with a load of an address of its own on each edge. All of these loads have one address.
fence::Request with_loads(fence::Request r, std::uint8_t address) {
    const auto edges = r.edges;
    r.edges.clear();
    for (const fence::Edge &e : edges) {
        const auto made_up = static_cast<std::uint16_t>(r.nodes.size());
        r.nodes.push_back({fence::Kind::load, address});
        r.edges.push_back({e.from, made_up, e.weight});
        r.edges.push_back({made_up, e.to, e.weight});
    }
    return r;
}

bool held(const fence::Request &r, std::size_t order) { return fence::ask(r.bytes(), order).value().held(); }

bool names(const fence::Order &order, std::size_t node) { return order.first == node || order.second == node; }

// The same graph with each way over this node made one edge. The node itself stays, on no way.
fence::Request left_out(fence::Request r, std::uint16_t node) {
    const auto edges = r.edges;
    r.edges.clear();
    std::set<std::pair<std::uint16_t, std::uint16_t>> pairs;
    const auto join = [&](std::uint16_t from, std::uint16_t to) {
        if (from != node && to != node && pairs.insert({from, to}).second) r.edges.push_back({from, to, 1});
    };
    for (const fence::Edge &e : edges) {
        join(e.from, e.to);
        for (const fence::Edge &next : edges)
            if (e.to == node && next.from == node) join(e.from, next.to);
    }
    return r;
}

std::set<std::uint16_t> reached(const fence::Request &r, std::uint16_t from, bool backwards) {
    std::set<std::uint16_t> seen{from};
    for (std::size_t before = 0; before != seen.size();) {
        before = seen.size();
        for (const fence::Edge &e : r.edges)
            if (seen.count(backwards ? e.to : e.from)) seen.insert(backwards ? e.from : e.to);
    }
    return seen;
}

// The same graph without the edges of nodes that lie on no way from an order's first node to its second.
fence::Request between_ends(fence::Request r) {
    std::set<std::uint16_t> kept;
    for (const fence::Order &o : r.orders) {
        const auto after = reached(r, o.first, false), before = reached(r, o.second, true);
        std::set_intersection(after.begin(), after.end(), before.begin(), before.end(),
                              std::inserter(kept, kept.end()));
    }
    const auto away = [&](const fence::Edge &e) { return !kept.count(e.from) || !kept.count(e.to); };
    r.edges.erase(std::remove_if(r.edges.begin(), r.edges.end(), away), r.edges.end());
    return r;
}

// The edges that run cuts, by their ends.
std::vector<std::pair<std::uint16_t, std::uint16_t>> cut(const fence::Request &r) {
    std::vector<std::pair<std::uint16_t, std::uint16_t>> edges;
    for (const fence::Placed &p :
         fence::placed(r, fence::Request::read(fence::run(r.bytes()).value().file).value()))
        edges.push_back({p.from, p.to});
    return edges;
}

void put_fence(fence::Request &r, std::size_t edge) {
    const std::uint16_t added = r.full_fence();
    r.edge(added, r.edges[edge].to, r.edges[edge].weight);
    r.edges[edge].to = added;
}

bool same_orders_held(const fence::Request &one, const fence::Request &other) {
    bool same = true;
    for (std::size_t order = 0; order < one.orders.size(); ++order)
        same = same &&
               fence::ask(one.bytes(), order).value().held() == fence::ask(other.bytes(), order).value().held();
    return same;
}

}  // namespace

TEST_CASE("the rules of x86 and Arm leave a made-up load alone; two rules that meet in a load don't") {
    const fence::Request none;
    CHECK(neutral(none));
    CHECK(neutral(fence::Request().rule(store(1), store(2)).rule(load(1), load(2)).rule(load(1), store(2))));
    CHECK(neutral(fence::Request().rule(store(1), store(1)).rule(load(1), load(1)).rule(load(1), store(1))));
    CHECK_FALSE(neutral(fence::Request().rule(store(1), load(2)).rule(load(1), store(2))));
    CHECK_FALSE(neutral(fence::Request().rule(fence::any(), load(1)).rule(load(1), store(2))));
}

TEST_CASE("rules that no file may have are refused") {
    CHECK(fence::neutral({}).refusal().answer == 7);
    CHECK(fence::neutral(fence::Request().rule(store(2), store(1)).rules).refusal().answer == 5);
}

TEST_CASE("where the rules are neutral a load on each edge changes no order, and else it sometimes does") {
    generate::Random random(22);
    std::size_t neutral_rules = 0, lost = 0;
    for (int i = 0; i < 1000; ++i) {
        const auto rules = rules_of_loads(random);
        const bool safe = neutral(lists({{}, {}, rules, {}}));
        neutral_rules += safe;
        for (int graph = 0; graph < 6; ++graph) {
            const fence::Request before = small_or_line(random, rules);
            const bool same = same_orders_held(before, with_loads(before, 200));
            if (safe) CHECK(same);
            lost += !same;
        }
    }
    CHECK(neutral_rules > 300);
    CHECK(lost > 100);
}

TEST_CASE("an access left out may cost a fence, and never an order") {
    generate::Random random(23);
    std::size_t asked = 0, dearer = 0;
    for (int i = 0; i < 3000; ++i) {
        const fence::Request whole = small_or_line(random, rules_of_loads(random));
        for (std::uint16_t node = 0; node < whole.nodes.size(); ++node) {
            const fence::Request less = left_out(whole, node);
            for (std::size_t order = 0; order < whole.orders.size(); ++order) {
                if (names(whole.orders[order], node)) continue;
                ++asked;
                const bool before = held(whole, order), after = held(less, order);
                if (after) CHECK(before);
                dearer += before && !after;
            }
        }
    }
    CHECK(asked > 1000);
    CHECK(dearer > 100);
}

TEST_CASE("nodes between no order's ends change no cut") {
    generate::Random random(24);
    std::size_t smaller = 0;
    for (int i = 0; i < 1000; ++i) {
        const fence::Request whole = lists(generate::small(random));
        if (!fence::run(whole.bytes())) continue;
        const fence::Request less = between_ends(whole);
        smaller += less.edges.size() < whole.edges.size();
        CHECK(cut(less) == cut(whole));
    }
    CHECK(smaller > 100);
}

TEST_CASE("a fence on each edge that leaves the first node of an open order makes every order held") {
    generate::Random random(25);
    std::size_t open = 0;
    for (int i = 0; i < 2000; ++i) {
        fence::Request r = lists(generate::small(random));
        if (!fence::run(r.bytes())) continue;
        const fence::Request whole = r;
        std::set<std::uint16_t> firsts;
        for (std::size_t order = 0; order < whole.orders.size(); ++order)
            if (!held(whole, order)) firsts.insert(whole.orders[order].first);
        open += firsts.size();
        for (std::size_t edge = 0; edge < whole.edges.size(); ++edge)
            if (firsts.count(whole.edges[edge].from)) put_fence(r, edge);
        CHECK(fence::run(r.bytes()).value().fences == 0);
    }
    CHECK(open > 500);
}
