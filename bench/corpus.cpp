// Instances out of shapes: orders, weights and rules.
#include "corpus.hpp"

#include <algorithm>
#include <set>

#include "shapes.hpp"

namespace corpus {
namespace {

using namespace reference;

const std::vector<Rule> total_store_order = {{3, 0, 2, 0}, {2, 0, 3, 0}, {0, 1, 0, 2},
                                             {1, 1, 1, 2}, {1, 1, 0, 2}, {0, 1, 1, 1}};
const std::vector<Rule> one_address = {{3, 0, 2, 0}, {2, 0, 3, 0}, {0, 1, 0, 1}, {1, 1, 1, 1}, {1, 1, 0, 1}};

const unsigned counts[] = {1, 2, 4, 8, 16, 32};  // of orders

const char *const weight_names[] = {"equal", "by depth", "random"};

std::vector<Edge> weighed(Random &random, const Shape &shape, unsigned weights) {
    std::vector<Edge> edges;
    for (auto [from, to] : shape.edges) {
        unsigned depth = std::min(shape.depth[from], shape.depth[to]), weight = 1;
        for (; weights == 1 && depth > 0; --depth) weight *= 8;
        if (weights == 2) weight = random.between(1, 100);
        edges.push_back({from, to, std::min(weight, 65535u)});
    }
    return edges;
}

bool reaches(const Shape &shape, unsigned from, unsigned to) {
    std::set<unsigned> seen{from};
    for (bool grown = true; grown;) {
        grown = false;
        for (auto [a, b] : shape.edges)
            if (seen.count(a) && seen.insert(b).second) grown = true;
    }
    return seen.count(to) != 0;
}

// The shape's own orders first, then pairs that some route joins; one at least.
std::vector<Order> asked(Random &random, const Shape &shape, unsigned count) {
    std::set<std::pair<unsigned, unsigned>> pairs;
    std::vector<Order> orders;
    const auto add = [&](unsigned first, unsigned second) {
        if (orders.size() < count && first != second && pairs.insert({first, second}).second)
            orders.push_back({first, second});
    };
    for (auto [first, second] : shape.orders) add(first, second);
    const unsigned nodes = static_cast<unsigned>(shape.nodes.size());
    for (unsigned tries = 0; orders.empty() || (tries < 20 * count && orders.size() < count); ++tries) {
        const unsigned first = random.below(nodes), second = random.below(nodes);
        if (reaches(shape, first, second)) add(first, second);
    }
    return orders;
}

Shape built(Random &random, const Family &family, unsigned size) {
    Builder builder(random, size);
    family.build(builder);
    return builder.shape();
}

Instance filled(Random &random, const Family &family, const Shape &shape, unsigned weights, unsigned orders) {
    const std::vector<Rule> &rules = random.chance(50) ? total_store_order : one_address;
    const std::vector<Edge> edges = weighed(random, shape, weights);
    return {family.name, weight_names[weights], {shape.nodes, edges, rules, asked(random, shape, orders)}};
}

Instance drawn(Random &random, const Family &family, unsigned size, unsigned weights, unsigned orders) {
    return filled(random, family, built(random, family, size), weights, orders);
}

// Of the shape's own orders any may be asked, not only those at its start.
Instance spread(Random &random, const Family &family, unsigned size, unsigned weights, unsigned orders) {
    Shape shape = built(random, family, size);
    for (std::size_t i = shape.orders.size(); i > 1; --i)
        std::swap(shape.orders[i - 1], shape.orders[random.below(i)]);
    return filled(random, family, shape, weights, orders);
}

// Each order spans three edges that no other has.
Instance line_of_orders(unsigned orders) {
    Request request{{{store, 0}}, {}, one_address, {}};
    for (unsigned i = 0; i < 3 * orders; ++i) {
        request.nodes.push_back({store, i + 1});
        request.edges.push_back({i, i + 1, 1});
        if (i % 3 == 2) request.orders.push_back({i - 2, i + 1});
    }
    return {"line", weight_names[0], request};
}

bool is_one_of(const std::string &name, const std::set<std::string> &names) { return names.count(name) != 0; }

}  // namespace

std::vector<Instance> instances(std::uint64_t seed) {
    static const unsigned sizes[] = {8, 16, 24, 32, 40, 48, 56, 62};
    std::vector<Instance> all;
    Random random(seed);
    for (const Family &family : families())
        for (unsigned size : sizes)
            for (unsigned i = 0; i < 6; ++i)
                all.push_back(drawn(random, family, size, i % 3, counts[random.below(6)]));
    return all;
}

std::vector<Instance> sixty(std::uint64_t seed) {
    std::vector<Instance> all{line_of_orders(20)};
    Random random(seed);
    for (const Family &family : families())
        if (is_one_of(family.name, {"structured", "classic", "commit"}))
            for (unsigned i = 0; i < 200; ++i) all.push_back(drawn(random, family, 60, 0, 32));
    return all;
}

std::vector<Instance> sixty_of_all(std::uint64_t seed, unsigned orders) {
    std::vector<Instance> all;
    Random random(seed);
    for (const Family &family : families())
        for (unsigned i = 0; i < 60; ++i)
            all.push_back(drawn(random, family, 60, i % 3, orders != 0 ? orders : counts[i / 3 % 6]));
    return all;
}

std::vector<Instance> real(std::uint64_t seed) {
    static const unsigned sizes[] = {400, 456, 480, 512};
    std::vector<Instance> all;
    Random random(seed);
    for (const Family &family : families())
        for (unsigned i = 0; i < 18; ++i) all.push_back(spread(random, family, sizes[i % 4], i % 3, counts[i / 3]));
    return all;
}

}  // namespace corpus
