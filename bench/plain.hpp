// Run as a plain C++ program: the library's algorithm without its proofs, to compare times with.
#ifndef PLAIN_HPP
#define PLAIN_HPP

#include <bitset>
#include <cstddef>
#include <cstdint>
#include <vector>

#include "fence.h"

namespace plain {

constexpr unsigned most_nodes = 512, most_edges = 1024, most_rules = 32, most_orders = 32;

using Nodes = std::bitset<most_nodes>;
using Edges = std::bitset<most_edges>;

inline bool within(const Nodes &part, const Nodes &whole) { return (part & ~whole).none(); }

struct Node {
    std::uint8_t kind, address;
};
struct Edge {
    std::uint16_t from, to, weight;
};
struct Rule {
    std::uint8_t left_kind, left_variable, right_kind, right_variable;
};
struct Order {
    std::uint16_t first, second;
};

struct Graph {
    Node nodes[most_nodes];
    Edge edges[most_edges];
    Rule rules[most_rules];
    Order orders[most_orders];
    unsigned node_count = 0, edge_count = 0, rule_count = 0, order_count = 0;
};

struct Refusal {
    std::uint64_t answer, place;
};

// plain_read.cpp: answers 1 to 7, or 0 and the graph.
Refusal read(const std::uint8_t *file, std::size_t length, Graph &graph);

// plain_walk.cpp: for each node the nodes that some rule fits with it before them.
using Fits = std::vector<Nodes>;
Fits fits_of(const Graph &graph);

// plain_walk.cpp: a flag for each order that is asked and not held.
std::uint32_t open_orders(const Graph &graph, const Fits &fits);

// plain_walk.cpp: for each ordered pair of nodes how many nodes the walk goes on to.
std::vector<std::uint64_t> visits(const Graph &graph);

// plain_cut.cpp: the chosen cut for these orders, of those that meet every route that does not order its ends.
struct Cut {
    Edges edges;
    std::uint64_t weight = 0;

    Cut with(unsigned edge, unsigned edge_weight) const {
        Cut larger = *this;
        larger.edges.set(edge);
        larger.weight += edge_weight;
        return larger;
    }
};
Cut chosen(const Graph &graph, const Fits &fits, std::uint32_t open);

// plain.cpp: as fence_run.
fence_report run(const std::uint8_t *file, std::size_t length, std::uint8_t *out, std::size_t room);

}  // namespace plain

#endif
