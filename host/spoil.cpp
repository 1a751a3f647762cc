// Requests with faults: see generate.hpp.
#include <algorithm>

#include "generate.hpp"

namespace generate {
namespace {

template <class Item>
Item &any(Random &random, std::vector<Item> &items) {
    return items[random.below(items.size())];
}

// A copy of one item, put in anywhere.
template <class Item>
void repeat(Random &random, std::vector<Item> &items) {
    const Item item = any(random, items);
    items.insert(items.begin() + random.below(items.size() + 1), item);
}

void spoil_node(Random &random, Request &request) {
    if (request.nodes.empty()) return;
    Node &node = any(random, request.nodes);
    node = random.chance(50) ? Node{full_fence, random.below(2)} : Node{random.between(2, 4), 0};
}

void spoil_edge(Random &random, Request &request) {
    if (request.edges.empty()) return;
    const unsigned beyond = static_cast<unsigned>(request.nodes.size()) + 256 * random.below(2);
    Edge &edge = any(random, request.edges);
    switch (random.below(4)) {
        case 0: edge.from = beyond - random.below(2); break;
        case 1: edge.to = beyond - random.below(2); break;
        case 2: edge.weight = 256 * random.below(2); break;
        default: repeat(random, request.edges), any(random, request.edges).weight = 2;
    }
}

void spoil_rule(Random &random, Request &request) {
    const Rule rule{random.below(5), random.below(3), random.below(5), random.below(4)};
    request.rules.insert(request.rules.begin() + random.below(request.rules.size() + 1), rule);
}

void spoil_order(Random &random, Request &request) {
    if (request.orders.empty()) return;
    const unsigned beyond = static_cast<unsigned>(request.nodes.size()) + 256 * random.below(2);
    Order &order = any(random, request.orders);
    switch (random.below(4)) {
        case 0: order.first = beyond - random.below(2); break;
        case 1: order.second = beyond - random.below(2); break;
        case 2: order.second = order.first; break;
        default: repeat(random, request.orders);
    }
}

}  // namespace

Request spoiled(Random &random, Request request) {
    void (*const faults[])(Random &, Request &) = {spoil_node, spoil_edge, spoil_rule, spoil_order};
    for (unsigned i = random.between(1, 2); i > 0; --i) faults[random.below(4)](random, request);
    return request;
}

Request unfit(Random &random, Request request) {
    if (request.edges.empty()) return request;
    const unsigned nodes = static_cast<unsigned>(request.nodes.size()), high = random.below(std::min(nodes, 3u));
    const Edge last = request.edges.back();
    switch (random.below(8)) {
        case 0: any(random, request.edges).weight += 1; break;
        case 1: request.edges.back().weight += 1; break;
        case 2: std::swap(any(random, request.edges), request.edges.back()); break;
        case 3:
            request.edges.insert(request.edges.begin(), {random.below(nodes), nodes - 1 - high, last.weight});
            break;
        case 4:
            request.edges.insert(request.edges.begin(), {nodes - 1 - high, random.below(nodes), last.weight});
            break;
        case 5: request.nodes[nodes - 1 - high] = {random.below(3), 0}; break;
        case 6:  // what joining the last edge with one before it would give
            for (const Edge &edge : std::vector<Edge>(request.edges))
                if (edge.to == last.from) request.edges.insert(request.edges.begin(), {edge.from, last.to, 1});
            break;
        default: request.orders = orders(random, nodes, 2);
    }
    return request;
}

}  // namespace generate
