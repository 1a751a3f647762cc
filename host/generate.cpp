// Requests: see generate.hpp.
#include "generate.hpp"

#include <algorithm>

namespace generate {

std::uint64_t Random::next() {
    std::uint64_t z = state_ += 0x9E3779B97F4A7C15u;
    z = (z ^ (z >> 30)) * 0xBF58476D1CE4E5B9u;
    z = (z ^ (z >> 27)) * 0x94D049BB133111EBu;
    return z ^ (z >> 31);
}

namespace {

template <class Item>
void shuffle(Random &random, std::vector<Item> &items) {
    for (std::size_t i = items.size(); i > 1; --i) std::swap(items[i - 1], items[random.below(i)]);
}

const std::vector<std::vector<Rule>> rule_sets = {
    {},
    {{0, 1, 0, 2}, {1, 1, 1, 2}},                              // D's
    {{0, 1, 0, 2}, {1, 1, 1, 2}, {0, 1, 1, 1}},                // P4's
    {{0, 1, 0, 2}, {1, 1, 1, 2}, {1, 1, 0, 2}, {0, 1, 1, 1}},  // total store order
    {{0, 1, 0, 1}, {1, 1, 1, 1}, {1, 1, 0, 1}, {0, 1, 1, 1}},  // one address at a time
    {{1, 1, 3, 0}, {3, 0, 0, 1}},                              // loads acquire, stores release
};

std::vector<Node> nodes(Random &random, unsigned count) {
    static const unsigned addresses[] = {0, 255, 7, 1, 128};
    const unsigned used = random.between(1, 5), fences = random.below(4) * 10;
    std::vector<Node> nodes;
    for (unsigned i = 0; i < count; ++i) {
        if (random.chance(fences))
            nodes.push_back({full_fence, 0});
        else
            nodes.push_back({random.below(2), addresses[random.below(used)]});
    }
    return nodes;
}

void weigh(Random &random, std::vector<Edge> &edges) {
    const unsigned highest[] = {1, 1, 2, 3, 10, 65535};
    const unsigned high = highest[random.below(6)];
    const bool heavy = random.chance(5);
    for (Edge &edge : edges) edge.weight = heavy ? 65535 - random.below(2) : random.between(1, high);
}

Pairs straight(unsigned n) {
    Pairs pairs;
    for (unsigned i = 0; i + 1 < n; ++i) pairs.insert({i, i + 1});
    return pairs;
}

// Diamonds and single edges in a row. Over d diamonds there are two to the power of d routes.
Pairs ladder(Random &random, unsigned n, unsigned diamonds) {
    Pairs pairs;
    for (unsigned at = 0; at + 1 < n;) {
        if (at + 3 < n && diamonds > 0 && random.chance(40)) {
            pairs.insert({{at, at + 1}, {at, at + 2}, {at + 1, at + 3}, {at + 2, at + 3}});
            at += 3, --diamonds;
        } else {
            pairs.insert({at, at + 1});
            ++at;
        }
    }
    return pairs;
}

// A line with loops: self-edges and edges back inside blocks of four nodes, and three edges back over any distance.
// So there are few ways to go back, and few routes to enumerate.
Pairs looped(Random &random, unsigned n) {
    Pairs pairs = straight(n);
    for (unsigned i = random.below(n); i > 0; --i) {
        const unsigned from = random.below(n);
        pairs.insert({from, from - random.below(from % 4 + 1)});
    }
    for (unsigned i = random.below(4); i > 0; --i) {
        const unsigned from = random.below(n);
        pairs.insert({from, random.below(from + 1)});
    }
    return pairs;
}

}  // namespace

const std::vector<Rule> &legal_rules() {
    static const std::vector<Rule> all = [] {
        std::vector<Rule> legal;
        for (unsigned left = 0; left < 4; ++left) {
            for (unsigned right = 0; right < 4; ++right) {
                const unsigned one = left < 2 ? 1 : 0;
                legal.push_back({left, one, right, right < 2 ? 1u : 0u});
                if (left < 2 && right < 2) legal.push_back({left, one, right, 2});
            }
        }
        return legal;
    }();
    return all;
}

std::vector<Rule> rules(Random &random) {
    std::vector<Rule> rules;
    if (random.chance(50)) {
        rules = rule_sets[random.below(rule_sets.size())];
    } else {
        for (unsigned i = random.below(5); i > 0; --i)
            rules.push_back(legal_rules()[random.below(legal_rules().size())]);
    }
    if (!random.chance(2)) rules.push_back({wildcard, 0, full_fence, 0});
    if (!random.chance(2)) rules.push_back({full_fence, 0, wildcard, 0});
    shuffle(random, rules);
    return rules;
}

std::vector<Edge> edges_of(Random &random, const Pairs &pairs) {
    std::vector<Edge> edges;
    for (auto [from, to] : pairs) edges.push_back({from, to, 1});
    if (random.chance(70)) shuffle(random, edges);
    weigh(random, edges);
    return edges;
}

std::vector<Order> orders(Random &random, unsigned nodes, unsigned most, unsigned apart) {
    std::vector<Order> orders;
    Pairs asked;
    for (unsigned i = nodes < 2 ? 0 : random.below(most + 1); i > 0; --i) {
        const unsigned first = random.below(nodes);
        const unsigned second = random.between(first - std::min(first, apart), std::min(first + apart, nodes - 1));
        if (first == second || !asked.insert({first, second}).second) continue;
        orders.push_back({first, second});
        if (random.chance(20) && asked.insert({second, first}).second) orders.push_back({second, first});
    }
    orders.resize(std::min<std::size_t>(orders.size(), most_orders));
    return orders;
}

Request small(Random &random) {
    const unsigned n = random.below(9);
    Pairs pairs = random.chance(60) ? straight(n) : Pairs{};
    for (unsigned i = n == 0 ? 0 : random.below(2 * n + 1); i > 0; --i)
        pairs.insert({random.below(n), random.below(n)});
    return {nodes(random, n), edges_of(random, pairs), rules(random), orders(random, n, 6)};
}

Request large(Random &random) {
    const unsigned n = random.chance(40) ? random.between(9, 99) : random.between(100, most_nodes);
    const unsigned shape = random.below(3);
    const Pairs pairs = shape == 0 ? straight(n) : shape == 1 ? ladder(random, n, 6) : looped(random, n);
    return {nodes(random, n), edges_of(random, pairs), rules(random), orders(random, n, 8)};
}

Request branching(Random &random) {
    const unsigned n = random.between(100, most_nodes), diamonds = n / 3;
    const Pairs pairs = ladder(random, n, diamonds);
    // a diamond has three nodes more, so two that are so far apart have at most 64 routes
    return {nodes(random, n), edges_of(random, pairs), rules(random), orders(random, n, most_orders, 18)};
}

Request at_limits(Random &random) {
    const auto near = [&](unsigned limit) { return limit - 1 + random.below(random.chance(30) ? 3 : 2); };
    const unsigned n = random.chance(60) ? near(most_nodes) : random.between(300, most_nodes - 2);
    Pairs pairs = straight(n);
    const std::size_t edges = random.chance(60) ? near(most_edges) : random.between(n, most_edges - 2);
    // Self-edges, steps back and jumps to the start: no second route between nodes in rising order.
    for (unsigned i = 0; pairs.size() < edges; ++i) {
        const unsigned from = i % n;
        pairs.insert({from, i < n ? from : i < 2 * n ? from - std::min(from, 1u) : 0});
    }
    Request request{nodes(random, n), edges_of(random, pairs), rules(random), {}};
    const std::size_t rules = random.chance(30) ? near(most_rules) : 0;
    while (request.rules.size() < rules) request.rules.push_back(legal_rules()[random.below(legal_rules().size())]);
    const std::size_t orders = random.chance(40) ? near(most_orders) : random.below(5);
    if (orders > 0 && random.chance(20)) request.orders.push_back({0, n - 1});  // the longest route there is
    for (unsigned i = 0; request.orders.size() < orders; ++i) {
        const unsigned length = random.between(1, 3), first = (5 * i) % (n - length);
        const Order order{first, first + length};
        const auto same = [&](const Order &o) { return o.first == order.first && o.second == order.second; };
        if (std::none_of(request.orders.begin(), request.orders.end(), same)) request.orders.push_back(order);
    }
    return request;
}

}  // namespace generate
