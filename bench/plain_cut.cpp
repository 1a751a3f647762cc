// The chosen cut in three phases: a first cut, quickly; the least weight, by branching on an unordered route's
// edges under a bound from packed ones; then the list, edge by edge.
#include <algorithm>

#include "plain_route.hpp"

namespace plain {
namespace {

struct Bound {
    std::uint64_t total = 0;
    std::uint16_t left[most_edges];  // of each edge's weight
    Path first;                      // the first route packed; none where nothing is left to cut
};

struct Found {
    bool found = false;
    Cut cut;
};

class Search {
public:
    Search(const Graph &graph, const Fits &fits, std::uint32_t open) : graph_(graph), routes_(graph, fits) {
        sort_by_distance(open);
    }

    Cut chosen() {
        std::uint64_t all = 0;
        for (unsigned i = 0; i < graph_.edge_count; ++i) all += graph_.edges[i].weight;
        const Bound whole = bound({}, all);
        Cut best = first_cut(whole);
        if (best.weight > 0) {
            const Found lighter = least({}, best.weight - 1);
            if (lighter.found) best = lighter.cut;
        }
        const std::uint64_t gap = best.weight - whole.total;
        Cut kept;
        std::uint64_t rest = best.weight;
        for (unsigned e = 0; e < graph_.edge_count && rest > 0; ++e) {
            const unsigned weight = graph_.edges[e].weight;
            if (!best.edges[e]) {
                if (weight > rest || whole.left[e] > gap) continue;  // with such an edge a cut is heavier
                const Found other = least(kept.with(e, weight), rest - weight);
                if (!other.found) continue;
                best = other.cut;
            }
            kept = kept.with(e, weight);
            rest -= weight;
        }
        return kept;
    }

private:
    // Short orders first: they leave the bound the fewest edges to choose from.
    void sort_by_distance(std::uint32_t open) {
        unsigned distance[most_orders];
        std::uint16_t left[most_edges];
        Path path;
        std::fill(left, left + graph_.edge_count, std::uint16_t{1});
        for (unsigned i = 0; i < graph_.order_count; ++i) {
            if (!(open >> i & 1)) continue;
            distance[i] = routes_.shortest(graph_.orders[i], left, path);
            near_[near_count_++] = i;
        }
        std::stable_sort(near_, near_ + near_count_,
                         [&](unsigned a, unsigned b) { return distance[a] < distance[b]; });
    }

    // What any cut must still spend: unordered routes are packed as long as no edge bears more than its weight.
    Bound bound(const Cut &cut, std::uint64_t allowance) {
        Bound result;
        Path path;
        std::uint16_t *left = result.left;
        for (unsigned i = 0; i < graph_.edge_count; ++i) left[i] = cut.edges[i] ? 0 : graph_.edges[i].weight;
        for (unsigned i = 0; i < near_count_; ++i) {
            const Order &order = graph_.orders[near_[i]];
            while (routes_.unordered(order, left, path) > 0) {
                if (result.first.length == 0) result.first = path;
                std::uint16_t pays = 65535;
                for (unsigned p = 0; p < path.length; ++p) pays = std::min(pays, left[path.edges[p]]);
                for (unsigned p = 0; p < path.length; ++p) left[path.edges[p]] -= pays;
                result.total += pays;
                if (result.total > allowance) return result;
            }
        }
        return result;
    }

    // Of each route that it misses, the edge of which the packing leaves the least.
    Cut first_cut(const Bound &whole) {
        Cut cut;
        for (;;) {
            const Path missed = bound(cut, 0).first;
            if (missed.length == 0) return cut;
            const auto less = [&](unsigned a, unsigned b) { return whole.left[a] < whole.left[b]; };
            const unsigned edge = *std::min_element(missed.edges, missed.edges + missed.length, less);
            cut = cut.with(edge, graph_.edges[edge].weight);
        }
    }

    // The lightest cut that contains this one and costs at most so much more.
    Found least(const Cut &cut, std::uint64_t allowance) {
        Bound lower = bound(cut, allowance);
        Found best;
        if (lower.total > allowance) return best;
        if (lower.first.length == 0) return {true, cut};
        std::sort(lower.first.edges, lower.first.edges + lower.first.length);
        std::uint64_t rest = allowance;
        for (unsigned p = 0; p < lower.first.length; ++p) {
            const unsigned edge = lower.first.edges[p], weight = graph_.edges[edge].weight;
            if (weight > rest) continue;
            const Found other = least(cut.with(edge, weight), rest - weight);
            if (!other.found) continue;
            best = other;
            const std::uint64_t spent = other.cut.weight - cut.weight;
            if (spent == lower.total) return best;
            rest = spent - 1;
        }
        return best;
    }

    const Graph &graph_;
    Routes routes_;
    unsigned near_[most_orders], near_count_ = 0;
};

}  // namespace

Cut chosen(const Graph &graph, const Fits &fits, std::uint32_t open) {
    if (open == 0) return {};
    return Search(graph, fits, open).chosen();
}

}  // namespace plain
