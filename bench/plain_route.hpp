// Routes of an order over the edges with something left, found as the library finds them.
#ifndef PLAIN_ROUTE_HPP
#define PLAIN_ROUTE_HPP

#include "plain.hpp"

namespace plain {

struct Path {
    unsigned length = 0;
    std::uint16_t edges[most_nodes];
};

// For each node the edges at it, in rising order.
class Lists {
public:
    Lists(const Graph &graph, std::uint16_t Edge::*end);  // those with this end there

    const std::uint16_t *begin(unsigned node) const { return edges_ + start_[node]; }
    const std::uint16_t *end(unsigned node) const { return edges_ + start_[node + 1]; }

private:
    std::uint16_t start_[most_nodes + 1] = {}, edges_[most_edges];
};

// An edge can be used where `left` is not 0 for it. Each search gives the route's length, 0 where there is none.
class Routes {
public:
    Routes(const Graph &graph, const Fits &fits);

    // A route with the fewest edges, whatever it orders.
    unsigned shortest(const Order &order, const std::uint16_t *left, Path &path) const;

    // A route that does not order its ends.
    unsigned unordered(const Order &order, const std::uint16_t *left, Path &path);

private:
    // A node that a route can come to, with what is then ordered after the first; over which edge and from which
    // stop it came, and the stop kept last at the same node before.
    struct Stop {
        Nodes after;
        unsigned node, via, parent, earlier;
    };

    Nodes marked(const Nodes &after, unsigned node) const;
    bool orders_its_ends(const Order &order, const Path &path) const;
    bool known(unsigned node, const Nodes &after) const;
    void keep(const Stop &stop);
    unsigned way_to(unsigned stop, unsigned last_edge, Path &path) const;
    unsigned longer(const Order &order, const std::uint16_t *left, Path &path);

    const Graph &graph_;
    Lists in_, out_;
    const Fits &fits_;
    std::vector<Stop> stops_;
    std::vector<unsigned> latest_;  // for each node the stop kept last there
};

}  // namespace plain

#endif
