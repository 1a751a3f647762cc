// See generate.hpp.
#include <algorithm>

#include "generate.hpp"

namespace generate {
namespace {

using Numbers = std::vector<unsigned>;

// Between two nodes up to three ways with up to three nodes each, then the same again, and some edges back. `inner`
// gets the nodes that lie on one way only.
Pairs ways_apart(Random &random, unsigned n, Numbers &inner) {
    Pairs pairs;
    for (unsigned at = 0; at + 10 < n;) {
        std::set<unsigned> ends;
        unsigned next = at + 1;
        for (unsigned ways = random.between(1, 3); ways > 0; --ways) {
            unsigned end = at;
            for (unsigned length = random.below(4); length > 0; --length) {
                pairs.insert({end, next});
                inner.push_back(next);
                end = next++;
            }
            ends.insert(end);
        }
        for (unsigned end : ends) pairs.insert({end, next});
        if (random.chance(15)) pairs.insert({next, at});
        at = next;
    }
    return pairs;
}

// Each from a lower to a higher node, at most so far apart; one at least.
std::vector<Order> forward(Random &random, unsigned nodes, unsigned most, unsigned apart) {
    std::vector<Order> orders;
    Pairs asked;
    for (unsigned i = random.between(1, most); i > 0; --i) {
        const unsigned first = random.below(nodes - 1);
        const unsigned second = std::min(first + random.between(1, apart), nodes - 1);
        if (asked.insert({first, second}).second) orders.push_back({first, second});
    }
    return orders;
}

// Fences on some of the ways, any rules.
void order_by_fences(Random &random, Request &request, const Numbers &inner) {
    const unsigned used = random.between(1, 5), fences = random.between(1, 4) * 10;
    for (Node &node : request.nodes) {
        node.kind = random.below(2);
        node.address = random.below(used);
    }
    for (unsigned node : inner)
        if (random.chance(fences)) request.nodes[node] = {full_fence, 0};
    request.rules = rules(random);
}

// Orders from stores to loads, stores on some of the ways, loads elsewhere. A store orders what lies behind a load
// of its address, so different ways to a node order different nodes behind it.
void order_by_addresses(Random &random, Request &request, const Numbers &inner) {
    const unsigned used = random.between(2, 8), stores = random.between(2, 6) * 10;
    for (Node &node : request.nodes) node = {load, random.below(used)};
    for (unsigned node : inner)
        if (random.chance(stores)) request.nodes[node].kind = store;
    for (const Order &order : request.orders) {
        request.nodes[order.first] = {store, used};
        request.nodes[order.second] = {load, used + 1};
    }
    request.rules = {{0, 1, 0, 2}, {1, 1, 1, 2}, {0, 1, 1, 1}, {3, 0, 2, 0}, {2, 0, 3, 0}};
}

}  // namespace

Request detours(Random &random) {
    const unsigned n = random.chance(60) ? random.between(12, 60) : random.between(61, most_nodes);
    Numbers inner;
    const Pairs pairs = ways_apart(random, n, inner);
    Request request{std::vector<Node>(n), edges_of(random, pairs), {}, forward(random, n, n < 61 ? 4 : 16, 18)};
    if (random.chance(50))
        order_by_fences(random, request, inner);
    else
        order_by_addresses(random, request, inner);
    return request;
}

}  // namespace generate
