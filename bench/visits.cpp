// Counts the visits of the walk for every ordered pair of nodes of drawn graphs, and prints a row for each family
// of shapes and set of rules, as a Markdown table.
//
//     visits SEED [GRAPHS]                 GRAPHS for each density of fences and number of addresses; 10 if not
//     given visits SEED GRAPHS FAMILY RULES      one row alone, by its names in the table: for longer draws
#include <algorithm>
#include <cstdio>
#include <cstdlib>
#include <iterator>
#include <map>
#include <string>

#include "plain.hpp"
#include "shapes.hpp"

namespace {

using corpus::Random;

struct Rules {
    const char *name;
    std::vector<plain::Rule> rules;
};
const Rules rule_sets[] = {
    {"fences only", {{3, 0, 2, 0}, {2, 0, 3, 0}}},
    {"ARMv7", {{3, 0, 2, 0}, {2, 0, 3, 0}, {0, 1, 0, 1}, {1, 1, 1, 1}, {1, 1, 0, 1}, {0, 1, 1, 1}}},
    {"x86", {{3, 0, 2, 0}, {2, 0, 3, 0}, {0, 1, 0, 2}, {1, 1, 1, 2}, {1, 1, 0, 2}, {0, 1, 1, 1}}},
};

const unsigned densities[] = {0, 2, 10, 25};  // fences in 100 nodes
const unsigned addresses[] = {4, 16, 64, 200};

constexpr std::size_t most_edges = 192;

// A shape without labels. Its edges are put in while there is room, and once.
struct Drawn {
    unsigned nodes;
    std::set<std::pair<unsigned, unsigned>> edges;

    void edge(unsigned from, unsigned to) {
        if (edges.size() < most_edges) edges.insert({from, to});
    }
};

Drawn sparse(Random &random) {
    Drawn drawn{64, {}};
    while (drawn.edges.size() < most_edges) {
        const unsigned from = random.below(64), to = random.below(64);
        if (from != to) drawn.edge(from, to);
    }
    return drawn;
}

using Loop = std::pair<unsigned, unsigned>;  // its first node and its last

bool cross(const Loop &a, const Loop &b) {
    return (a.first < b.first && b.first < a.second && a.second < b.second) ||
           (b.first < a.first && a.first < b.second && b.second < a.second);
}

// As many loops in and behind each other as there is room for, with ways past most of them. The loop nests of the
// corpus would be too easy: a route gets past each of their loops over its head alone.
Drawn nest(Random &random) {
    Drawn drawn{64, {}};
    for (unsigned i = 0; i < 63; ++i) drawn.edge(i, i + 1);
    std::vector<Loop> loops;
    for (unsigned tries = 0; tries < 20000 && drawn.edges.size() < most_edges; ++tries) {
        const unsigned head = random.below(62), end = head + random.between(2, 40);
        const auto crossed = [&](const Loop &loop) { return cross(loop, {head, end}); };
        if (end > 63 || std::any_of(loops.begin(), loops.end(), crossed)) continue;
        loops.push_back({head, end});
        drawn.edge(end, head);
        if (random.chance(60)) drawn.edge(head, end);
        if (end < 63 && random.chance(40)) drawn.edge(head, end + 1);
    }
    return drawn;
}

// A shape of one of the corpus's families.
Drawn built(Random &random, const std::string &name, unsigned size) {
    corpus::Builder builder(random, size);
    for (const corpus::Family &family : corpus::families())
        if (family.name == name) family.build(builder);
    const corpus::Shape shape = builder.shape();
    return {size, {shape.edges.begin(), shape.edges.end()}};
}

struct Family {
    const char *name;
    Drawn (*draw)(Random &);
};
const Family families[] = {
    {"ladder of 19 diamonds, 60 nodes", [](Random &random) { return built(random, "diamonds", 60); }},
    {"sparse, 64 nodes, 192 edges", sparse},
    {"loop nest, 64 nodes", nest},
    {"structured, 64 nodes", [](Random &random) { return built(random, "structured", 64); }},
};

plain::Graph labelled(Random &random, const Drawn &drawn, unsigned density, unsigned used) {
    plain::Graph graph;
    for (; graph.node_count < drawn.nodes; ++graph.node_count) {
        plain::Node &node = graph.nodes[graph.node_count];
        node.kind = static_cast<std::uint8_t>(random.chance(density) ? reference::full_fence : random.below(2));
        node.address = static_cast<std::uint8_t>(node.kind == reference::full_fence ? 0 : random.below(used));
    }
    for (auto [from, to] : drawn.edges)
        graph.edges[graph.edge_count++] = {static_cast<std::uint16_t>(from), static_cast<std::uint16_t>(to), 1};
    return graph;
}

// How many orders took each number of visits.
class Tally {
public:
    void add(std::uint64_t visits) {
        ++asked_;
        if (visits > 1) ++walked_, ++counts_[visits];
    }

    void print(const char *family, const char *rules) const {
        std::printf("| %s | %s | %zu | %zu | %zu | %zu | %zu | %zu |\n", family, rules, asked_, walked_,
                    quantile(50), quantile(99), quantile(100), beyond(1000));
    }

private:
    // The least number that this percentage of the orders that walk at all keeps to.
    std::size_t quantile(unsigned percent) const {
        std::size_t within = 0;
        for (auto [visits, orders] : counts_)
            if ((within += orders) * 100 >= walked_ * percent) return visits;
        return 0;
    }
    std::size_t beyond(std::uint64_t limit) const {
        std::size_t orders = 0;
        for (auto at = counts_.upper_bound(limit); at != counts_.end(); ++at) orders += at->second;
        return orders;
    }

    std::map<std::uint64_t, std::size_t> counts_;
    std::size_t asked_ = 0, walked_ = 0;
};

void ask(plain::Graph graph, const Rules &rules, Tally &tally) {
    for (const plain::Rule &rule : rules.rules) graph.rules[graph.rule_count++] = rule;
    for (std::uint64_t visits : plain::visits(graph)) tally.add(visits);
}

// The row that is asked for; all of them where the names are empty.
struct Wanted {
    std::string family, rules;

    bool has(const Family &one) const { return family.empty() || family == one.name; }
    bool has(const Rules &one) const { return rules.empty() || rules == one.name; }
};

// Every set of rules gets the same graphs.
void print_rows(Random random, const Family &family, unsigned graphs, const Wanted &wanted) {
    Tally tallies[std::size(rule_sets)];
    for (unsigned density : densities)
        for (unsigned used : addresses)
            for (unsigned i = 0; i < graphs; ++i) {
                const Drawn drawn = family.draw(random);
                const plain::Graph graph = labelled(random, drawn, density, used);
                for (std::size_t r = 0; r < std::size(rule_sets); ++r)
                    if (wanted.has(rule_sets[r])) ask(graph, rule_sets[r], tallies[r]);
            }
    for (std::size_t r = 0; r < std::size(rule_sets); ++r)
        if (wanted.has(rule_sets[r])) tallies[r].print(family.name, rule_sets[r].name);
}

}  // namespace

int main(int arguments, char **argument) {
    if (arguments < 2) return 2;
    const Random random(std::strtoull(argument[1], nullptr, 10));
    const unsigned graphs = arguments < 3 ? 10 : static_cast<unsigned>(std::strtoul(argument[2], nullptr, 10));
    const Wanted wanted = arguments < 5 ? Wanted{} : Wanted{argument[3], argument[4]};
    std::printf("| family | rules | orders | that walk | median of those | 99 of 100 | most | beyond 1,000 |\n");
    std::printf("|---|---|---:|---:|---:|---:|---:|---:|\n");
    for (const Family &family : families)
        if (wanted.has(family)) print_rows(random, family, graphs, wanted);
    return 0;
}
