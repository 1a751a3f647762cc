// Which orders are open: a walk over routes that carries, besides the nodes visited, those that would be ordered
// after the first, and turns back where no unordered route can come of it.
#include <algorithm>

#include "plain.hpp"

namespace plain {
namespace {

// The lowest node, and most_nodes where there is none.
unsigned lowest(const Nodes &nodes) { return static_cast<unsigned>(nodes._Find_first()); }

// The lowest of those above this one, likewise.
unsigned higher(const Nodes &nodes, unsigned node) { return static_cast<unsigned>(nodes._Find_next(node)); }

template <class Test>
Nodes nodes_where(const Graph &graph, Test test) {
    Nodes nodes;
    for (unsigned i = 0; i < graph.node_count; ++i)
        if (test(graph.nodes[i])) nodes.set(i);
    return nodes;
}

bool side_matches(unsigned kind, const Node &node) { return kind == 3 || kind == node.kind; }

// A node that a route can come to, and what is then ordered after the first.
struct Pair {
    unsigned node;
    Nodes after;
};

constexpr unsigned most_rounds = most_nodes * most_nodes, most_pairs = most_nodes;

class Walk {
public:
    Walk(const Graph &graph, const Fits &fits) : next_(graph.node_count), least_(graph.node_count), fits_(fits) {
        for (unsigned i = 0; i < graph.edge_count; ++i) next_[graph.edges[i].from].set(graph.edges[i].to);
    }

    bool open(unsigned first, unsigned second) {
        last_ = second;
        into_.reset();
        visits_ = 0;
        for (unsigned p = 0; p < fits_.size(); ++p)
            if (fits_[p][second]) into_.set(p);
        const Nodes visited = Nodes().set(first);
        return hopeful(first, visited, fits_[first]) && trial(first, visited, fits_[first], false);
    }

    std::uint64_t visits() const { return visits_; }  // for the order that was asked last

private:
    // What is ordered after the first once the route has gone on to this node.
    Nodes marked(const Nodes &after, unsigned node) const { return after[node] ? after | fits_[node] : after; }

    // The nodes that come next, are not visited and would not order the last.
    Nodes live(unsigned at, const Nodes &visited, const Nodes &after) const {
        const Nodes allowed = ~visited & ~(after & into_);
        return next_[at] & allowed;
    }

    // Brings the sets of these nodes down to what is in `after` too; one that is not met yet has none so far. The
    // nodes whose sets changed.
    Nodes lower(const Nodes &met, const Nodes &nodes, const Nodes &after) {
        Nodes fell;
        for (unsigned node = lowest(nodes); node < most_nodes; node = higher(nodes, node)) {
            if (met[node] && within(least_[node], after)) continue;
            least_[node] = met[node] ? least_[node] & after : after;
            fell.set(node);
        }
        return fell;
    }

    // May a route go on from here to the last node and leave its ends unordered? Where this is false none does. For
    // each node that is met `least_` has what is ordered after the first on every way there over live nodes.
    bool hopeful(unsigned at, const Nodes &visited, const Nodes &after) {
        if (after[last_]) return false;
        Nodes left = lower({}, live(at, visited, after), after), met = left;
        for (unsigned round = 0; round < most_rounds; ++round) {
            if (met[last_] && !least_[last_][last_]) return true;
            const unsigned node = lowest(left);
            if (node == most_nodes) return false;
            const Nodes then = marked(least_[node], node), fell = lower(met, live(node, visited, then), then);
            met |= fell;
            left.reset(node);
            left |= fell;
        }
        return true;
    }

    // What goes on from a pair goes on from one with the same node and no more ordered, too.
    bool known(const Pair &pair) const {
        return std::any_of(pairs_.begin(), pairs_.end(),
                           [&](const Pair &p) { return p.node == pair.node && within(p.after, pair.after); });
    }

    // The same as `hopeful`, sharper and slower: all pairs that can come of this one. Walks do for routes here,
    // since coming back to a node orders no less. True, too, where there are too many pairs.
    bool some_way(unsigned at, const Nodes &visited, const Nodes &after) {
        pairs_.assign(1, {at, after});
        for (std::size_t i = 0; i < pairs_.size(); ++i) {
            const Nodes next = next_[pairs_[i].node] & ~visited, ordered = pairs_[i].after;
            for (unsigned node = lowest(next); node < most_nodes; node = higher(next, node)) {
                const Pair pair = {node, marked(ordered, node)};
                if (pair.after[last_]) continue;
                if (node == last_) return true;
                if (known(pair)) continue;
                if (pairs_.size() == most_pairs) return true;
                pairs_.push_back(pair);
            }
        }
        return false;
    }

    // Is there something to choose here?
    bool branches(unsigned at, const Nodes &visited) const {
        const Nodes next = next_[at] & ~visited;
        const unsigned node = lowest(next);
        return node < most_nodes && higher(next, node) < most_nodes;
    }

    // Is no way on left, now that the one over `failed` has failed? A short look if the walk was not wary and so
    // came here without; a longer one only where `hopeful` does not see that failure.
    bool lost(unsigned at, const Nodes &visited, const Nodes &after, bool wary, unsigned failed) {
        if (!branches(at, visited)) return false;
        if (!wary && !hopeful(at, visited, after)) return true;
        return hopeful(failed, Nodes(visited).set(failed), marked(after, failed)) && !some_way(at, visited, after);
    }

    bool visit(unsigned at, const Nodes &visited, const Nodes &after, bool doubt) {
        ++visits_;
        if (at == last_) return !after[at];
        return trial(at, Nodes(visited).set(at), marked(after, at), doubt);
    }

    // Tries the edges of the last node on the route so far, that to the lowest node first. With doubt, once some
    // way has failed, it looks ahead before it goes on.
    bool trial(unsigned at, const Nodes &visited, const Nodes &after, bool doubt) {
        if (doubt && branches(at, visited) && !hopeful(at, visited, after)) return false;
        const Nodes next = next_[at] & ~visited;
        bool wary = doubt;
        for (unsigned node = lowest(next); node < most_nodes; node = higher(next, node)) {
            if (visit(node, visited, after, wary)) return true;
            if (lost(at, visited, after, wary, node)) return false;
            wary = true;
        }
        return false;
    }

    std::vector<Nodes> next_, least_;
    const Fits &fits_;
    std::vector<Pair> pairs_;
    Nodes into_;
    unsigned last_ = 0;
    std::uint64_t visits_ = 0;
};

}  // namespace

Fits fits_of(const Graph &graph) {
    std::vector<Nodes> fits(graph.node_count), rights;
    for (unsigned r = 0; r < graph.rule_count; ++r)
        rights.push_back(
            nodes_where(graph, [&](const Node &node) { return side_matches(graph.rules[r].right_kind, node); }));
    for (unsigned p = 0; p < graph.node_count; ++p) {
        const Node left = graph.nodes[p];
        const Nodes close = nodes_where(graph, [&](const Node &node) { return node.address == left.address; });
        for (unsigned r = 0; r < graph.rule_count; ++r) {
            const Rule &rule = graph.rules[r];
            const bool one_variable = rule.left_variable == 1 && rule.right_variable == 1;
            if (side_matches(rule.left_kind, left)) fits[p] |= one_variable ? rights[r] & close : rights[r];
        }
    }
    return fits;
}

std::uint32_t open_orders(const Graph &graph, const Fits &fits) {
    Walk walk(graph, fits);
    std::uint32_t open = 0;
    for (unsigned i = 0; i < graph.order_count; ++i)
        if (walk.open(graph.orders[i].first, graph.orders[i].second)) open |= 1u << i;
    return open;
}

std::vector<std::uint64_t> visits(const Graph &graph) {
    const Fits fits = fits_of(graph);
    Walk walk(graph, fits);
    std::vector<std::uint64_t> counts;
    for (unsigned first = 0; first < graph.node_count; ++first) {
        for (unsigned second = 0; second < graph.node_count; ++second) {
            if (first == second) continue;
            walk.open(first, second);
            counts.push_back(walk.visits());
        }
    }
    return counts;
}

}  // namespace plain
