// The chosen cut, in two exact ways: by trying every set of edges, and, where there are too many sets, by deciding
// edge after edge. The tests hold the two against each other.
#include "reference.hpp"

#include <algorithm>
#include <map>

namespace reference {
namespace {

constexpr std::size_t few = 14;  // with so many edges that matter, every set is tried

// The routes that a cut must meet, those that do not order their order's ends, each as the set of its edges that
// matter. An edge on no such route can't be in a cut of least weight, since without it the cut would be lighter.
struct Problem {
    std::vector<unsigned> edges;           // that matter: rising edge numbers
    std::vector<std::vector<bool>> meets;  // meets[r][i]: route r runs over edges[i]
    std::vector<Number> weights;
};

std::vector<Route> unordered_routes(const Request &request) {
    std::vector<Route> all;
    for (const Order &order : request.orders)
        for (Route &route : routes(request, order))
            if (!orders_its_ends(request, route)) all.push_back(std::move(route));
    return all;
}

// on[i][r]: edge i is on route r.
std::vector<std::vector<bool>> edges_on(const Request &request, const std::vector<Route> &routes) {
    std::map<std::pair<unsigned, unsigned>, unsigned> number;
    for (unsigned i = 0; i < request.edges.size(); ++i) number[{request.edges[i].from, request.edges[i].to}] = i;
    std::vector<std::vector<bool>> on(request.edges.size(), std::vector<bool>(routes.size(), false));
    for (std::size_t r = 0; r < routes.size(); ++r)
        for (std::size_t p = 1; p < routes[r].size(); ++p) on[number[{routes[r][p - 1], routes[r][p]}]][r] = true;
    return on;
}

// The edges that matter, rising: of those on the very same routes one. A cut of least weight has at most one of
// these, which the lightest can stand for, and of several lightest the first gives the list that comes first.
std::vector<unsigned> edges_that_matter(const Request &request, const std::vector<std::vector<bool>> &on) {
    std::map<std::vector<bool>, unsigned> chosen;
    for (unsigned i = 0; i < request.edges.size(); ++i) {
        if (std::find(on[i].begin(), on[i].end(), true) == on[i].end()) continue;
        const auto [at, fresh] = chosen.insert({on[i], i});
        if (!fresh && request.edges[i].weight < request.edges[at->second].weight) at->second = i;
    }
    std::vector<unsigned> edges;
    for (const auto &[routes, edge] : chosen) edges.push_back(edge);
    std::sort(edges.begin(), edges.end());
    return edges;
}

Problem problem_of(const Request &request) {
    const std::vector<Route> all = unordered_routes(request);
    const std::vector<std::vector<bool>> on = edges_on(request, all);
    Problem problem;
    problem.edges = edges_that_matter(request, on);
    for (unsigned edge : problem.edges) problem.weights.push_back(request.edges[edge].weight);
    for (std::size_t r = 0; r < all.size(); ++r) {
        problem.meets.emplace_back();
        for (unsigned edge : problem.edges) problem.meets.back().push_back(on[edge][r]);
    }
    // Shorter routes first, and each once: the bound below gets sharper, the problem stays the same.
    const auto size = [](const std::vector<bool> &on) { return std::count(on.begin(), on.end(), true); };
    std::sort(problem.meets.begin(), problem.meets.end(),
              [&](const auto &a, const auto &b) { return size(a) != size(b) ? size(a) < size(b) : a < b; });
    problem.meets.erase(std::unique(problem.meets.begin(), problem.meets.end()), problem.meets.end());
    return problem;
}

Cut subsets(const Problem &problem) {
    std::vector<std::uint32_t> sets;
    for (const auto &on : problem.meets) {
        std::uint32_t set = 0;
        for (std::size_t i = 0; i < on.size(); ++i) set |= std::uint32_t{on[i]} << i;
        sets.push_back(set);
    }
    Cut best;
    Number least = ~Number{0};
    for (std::uint32_t chosen = 0; chosen >> problem.edges.size() == 0; ++chosen) {
        Cut cut;
        Number weight = 0;
        for (std::size_t i = 0; i < problem.edges.size(); ++i)
            if (chosen >> i & 1) cut.push_back(problem.edges[i]), weight += problem.weights[i];
        if (weight > least || (weight == least && !(cut < best))) continue;
        if (std::all_of(sets.begin(), sets.end(), [&](std::uint32_t set) { return (set & chosen) != 0; }))
            best = cut, least = weight;
    }
    return best;
}

// Decides the edges in rising order, taking before leaving. So the sets come in the order of their rising lists,
// and of several least ones the first stays.
class Decision {
public:
    explicit Decision(const Problem &problem) : problem_(problem), taken_(problem.edges.size(), false) {}

    Cut best() {
        decide(0, 0, problem_.meets);
        return best_;
    }

private:
    using Routes = std::vector<std::vector<bool>>;

    // At least so much more must be spent on the routes not met: each pays what its edges from `next` on can still
    // bear. Never is when a route has no such edge.
    Number bound(std::size_t next, const Routes &unmet) const {
        std::vector<Number> left = problem_.weights;
        Number total = 0;
        for (const auto &on : unmet) {
            Number pays = never;
            for (std::size_t i = next; i < on.size(); ++i)
                if (on[i]) pays = std::min(pays, left[i]);
            if (pays == never) return never;
            for (std::size_t i = next; i < on.size(); ++i)
                if (on[i]) left[i] -= pays;
            total += pays;
        }
        return total;
    }

    void decide(std::size_t next, Number weight, const Routes &unmet) {
        const Number more = bound(next, unmet);
        if (more == never || weight + more >= least_) return;
        if (unmet.empty()) {
            least_ = weight;
            best_.clear();
            for (std::size_t i = 0; i < taken_.size(); ++i)
                if (taken_[i]) best_.push_back(problem_.edges[i]);
            return;
        }
        Routes without;
        for (const auto &on : unmet)
            if (!on[next]) without.push_back(on);
        if (without.size() < unmet.size()) {  // an edge that meets nothing new is in no least cut
            taken_[next] = true;
            decide(next + 1, weight + problem_.weights[next], without);
            taken_[next] = false;
        }
        decide(next + 1, weight, unmet);
    }

    static constexpr Number never = ~Number{0};
    const Problem &problem_;
    std::vector<bool> taken_;
    Cut best_;
    Number least_ = never;
};

}  // namespace

Cut cut_by_subsets(const Request &request) { return subsets(problem_of(request)); }

Cut cut_by_deciding(const Request &request) { return Decision(problem_of(request)).best(); }

Cut chosen_cut(const Request &request) {
    const Problem problem = problem_of(request);
    return problem.edges.size() <= few ? subsets(problem) : Decision(problem).best();
}

Number weight_of(const Request &request, const Cut &cut) {
    Number weight = 0;
    for (unsigned edge : cut) weight += request.edges[edge].weight;
    return weight;
}

}  // namespace reference
