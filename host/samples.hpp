// The scope's sample graphs, as requests and as files.
#ifndef SAMPLES_HPP
#define SAMPLES_HPP

#include "reference.hpp"

namespace samples {

using namespace reference;

inline const std::vector<Rule> fence_rules = {{3, 0, 2, 0}, {2, 0, 3, 0}};
inline const std::vector<Rule> d_rules = {{3, 0, 2, 0}, {2, 0, 3, 0}, {0, 1, 0, 2}, {1, 1, 1, 2}};

inline Request graph_d() {
    return {{{store, 7}, {store, 9}, {load, 7}, {load, 9}},
            {{0, 1, 3}, {1, 2, 1}, {1, 3, 1}},
            d_rules,
            {{0, 2}, {0, 3}, {0, 1}}};
}

inline Request diamond() {
    return {{{store, 1}, {store, 2}, {full_fence, 0}, {load, 3}},
            {{0, 1, 1}, {1, 3, 1}, {0, 2, 1}, {2, 3, 1}},
            d_rules,
            {{0, 3}}};
}

inline Request loop() {
    return {{{store, 1}, {store, 2}, {load, 3}}, {{0, 1, 1}, {1, 0, 1}, {1, 2, 1}}, fence_rules, {{0, 2}}};
}

inline Request nothing() { return {{}, {}, fence_rules, {}}; }

// A straight line of n nodes, stores and loads in turn, edges of weight 1; an order from its first node to its
// last.
inline Request line(unsigned n) {
    Request request{{}, {}, fence_rules, {}};
    for (unsigned i = 0; i < n; ++i) request.nodes.push_back({i % 2, i % 256});
    for (unsigned i = 0; i + 1 < n; ++i) request.edges.push_back({i, i + 1, 1});
    if (n > 1) request.orders.push_back({0, n - 1});
    return request;
}

// From node 0 over n others to node n + 1, two edges of weight 1 each; an order between the two.
inline Request star(unsigned n) {
    Request request{std::vector<Node>(n + 2, {store, 1}), {}, fence_rules, {{0, n + 1}}};
    for (unsigned i = 1; i <= n; ++i) request.edges.insert(request.edges.end(), {{0, i, 1}, {i, n + 1, 1}});
    return request;
}

// A line of n nodes, and then a turn to the left where every way orders the goal, though no node that all of them
// pass seems to: one arm stores to 1, the other to 2, and after they have met both are loaded. A turn to the right
// does not. The rules keep stores in order, loads in order, and a store before a load of its address.
inline Request doubtful(unsigned n) {
    Request request{{{store, 0}}, {}, fence_rules, {}};
    for (const Rule &rule : {Rule{0, 1, 0, 2}, Rule{1, 1, 1, 2}, Rule{0, 1, 1, 1}}) request.rules.push_back(rule);
    for (unsigned i = 1; i < n; ++i) {
        request.nodes.push_back({load, 9});
        request.edges.push_back({i - 1, i, 1});
    }
    for (const Node &node : {Node{load, 9}, Node{store, 1}, Node{store, 2}, Node{load, 9}, Node{load, 1},
                             Node{load, 2}, Node{load, 3}, Node{load, 9}})
        request.nodes.push_back(node);
    const unsigned left = n, goal = n + 6, right = n + 7;
    for (auto [from, to] : {std::pair{n - 1, left},
                            {left, n + 1},
                            {left, n + 2},
                            {n + 1, n + 3},
                            {n + 2, n + 3},
                            {n + 3, n + 4},
                            {n + 4, n + 5},
                            {n + 5, goal},
                            {n - 1, right},
                            {right, goal}})
        request.edges.push_back({from, to, 1});
    request.orders.push_back({0, goal});
    return request;
}

// The shortest route has a fence. The other ways fork n times, over a store to one address or to another, and then
// pass loads of the second ones: only the way over all the first ones leaves the goal unordered. Loads of these stand
// aside, so that 2^i sets of what is ordered come to the i-th meeting, none within another. One edge of that way has
// weight 2, the others 5.
inline Request forks(unsigned n) {
    Request request{{{store, 255}, {full_fence, 0}, {load, 254}}, {{0, 1, 5}, {1, 2, 5}}, fence_rules, {{0, 2}}};
    for (const Rule &rule : {Rule{0, 1, 0, 2}, Rule{1, 1, 1, 2}, Rule{0, 1, 1, 1}}) request.rules.push_back(rule);
    unsigned at = 0;
    const auto add = [&](const Node &node) {
        request.nodes.push_back(node);
        return static_cast<unsigned>(request.nodes.size() - 1);
    };
    for (unsigned i = 0; i < n; ++i) {
        const unsigned first = add({store, 2 * i}), second = add({store, 2 * i + 1}), meeting = add({load, 253});
        request.edges.push_back({at, first, i + 1 == n ? 2u : 5u});
        for (auto [from, to] : {std::pair{at, second}, {first, meeting}, {second, meeting}})
            request.edges.push_back({from, to, 5});
        at = meeting;
        add({load, 2 * i});
    }
    for (unsigned i = 0; i < n; ++i) {
        request.edges.push_back({at, add({load, 2 * i + 1}), 5});
        at = request.edges.back().to;
    }
    request.edges.push_back({at, 2, 5});
    return request;
}

}  // namespace samples

#endif
