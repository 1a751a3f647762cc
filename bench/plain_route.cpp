// See plain_route.hpp. Mostly a shortest route is unordered, and found quickly; where it is not, the search must
// also tell apart what is ordered on the way to a node.
#include "plain_route.hpp"

#include <algorithm>
#include <numeric>

namespace plain {
namespace {

constexpr std::uint16_t no_edge = 65535;
constexpr unsigned no_stop = ~0u;

}  // namespace

Lists::Lists(const Graph &graph, std::uint16_t Edge::*end) {
    for (unsigned i = 0; i < graph.edge_count; ++i) ++start_[graph.edges[i].*end + 1];
    std::partial_sum(start_, start_ + graph.node_count + 1, start_);
    std::uint16_t filled[most_nodes] = {};
    for (unsigned i = 0; i < graph.edge_count; ++i) {
        const unsigned node = graph.edges[i].*end;
        edges_[start_[node] + filled[node]++] = static_cast<std::uint16_t>(i);
    }
}

Routes::Routes(const Graph &graph, const Fits &fits)
    : graph_(graph), in_(graph, &Edge::to), out_(graph, &Edge::from), fits_(fits), latest_(graph.node_count) {}

// Breadth first, from the route's end.
unsigned Routes::shortest(const Order &order, const std::uint16_t *left, Path &path) const {
    std::uint16_t via[most_nodes], queue[most_nodes];
    std::fill(via, via + graph_.node_count, no_edge);
    unsigned head = 0, tail = 0;
    queue[tail++] = order.second;
    while (head < tail && via[order.first] == no_edge) {
        const unsigned node = queue[head++];
        for (const std::uint16_t *e = in_.begin(node); e != in_.end(node); ++e) {
            const std::uint16_t from = graph_.edges[*e].from;
            if (left[*e] == 0 || via[from] != no_edge || from == order.second) continue;
            via[from] = *e;
            queue[tail++] = from;
        }
    }
    path.length = 0;
    if (via[order.first] == no_edge) return 0;
    for (unsigned node = order.first; node != order.second; node = graph_.edges[via[node]].to)
        path.edges[path.length++] = via[node];
    return path.length;
}

// What is ordered after the first once the route has gone on to this node.
Nodes Routes::marked(const Nodes &after, unsigned node) const { return after[node] ? after | fits_[node] : after; }

bool Routes::orders_its_ends(const Order &order, const Path &path) const {
    Nodes after = fits_[order.first];
    for (unsigned p = 0; p < path.length; ++p) after = marked(after, graph_.edges[path.edges[p]].to);
    return after[order.second];
}

// What goes on from a stop goes on from one at the same node with no more ordered, too.
bool Routes::known(unsigned node, const Nodes &after) const {
    for (unsigned stop = latest_[node]; stop != no_stop; stop = stops_[stop].earlier)
        if (within(stops_[stop].after, after)) return true;
    return false;
}

void Routes::keep(const Stop &stop) {
    latest_[stop.node] = static_cast<unsigned>(stops_.size());
    stops_.push_back(stop);
}

// The way to a stop, and on over an edge.
unsigned Routes::way_to(unsigned stop, unsigned last_edge, Path &path) const {
    path.length = 0;
    path.edges[path.length++] = static_cast<std::uint16_t>(last_edge);
    for (; stop > 0; stop = stops_[stop].parent)
        path.edges[path.length++] = static_cast<std::uint16_t>(stops_[stop].via);
    std::reverse(path.edges, path.edges + path.length);
    return path.length;
}

// The unordered route with the fewest edges, where the shortest route of all is ordered: breadth first over nodes
// together with what is ordered on the way there. It comes to no node twice, since who comes back has no less
// ordered than before. The library has room for 512 stops, and where they don't do it takes the walk's first
// unordered route; here there is room for any number, and both find the same as long as 512 do.
unsigned Routes::longer(const Order &order, const std::uint16_t *left, Path &path) {
    stops_.clear();
    std::fill(latest_.begin(), latest_.end(), no_stop);
    keep({fits_[order.first], order.first, 0, 0, no_stop});
    for (unsigned i = 0; i < stops_.size(); ++i) {
        const unsigned node = stops_[i].node;
        for (const std::uint16_t *e = out_.begin(node); e != out_.end(node); ++e) {
            if (left[*e] == 0) continue;
            const unsigned next = graph_.edges[*e].to;
            const Nodes after = marked(stops_[i].after, next);
            if (after[order.second]) continue;
            if (next == order.second) return way_to(i, *e, path);
            if (!known(next, after)) keep({after, next, *e, i, latest_[next]});
        }
    }
    return path.length = 0;
}

unsigned Routes::unordered(const Order &order, const std::uint16_t *left, Path &path) {
    if (shortest(order, left, path) == 0) return 0;
    return orders_its_ends(order, path) ? longer(order, left, path) : path.length;
}

}  // namespace plain
