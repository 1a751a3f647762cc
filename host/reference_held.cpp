// Routes by plain enumeration, and what is ordered on them by the definition's own recursion.
#include "reference.hpp"

#include <algorithm>
#include <bitset>
#include <functional>
#include <map>
#include <utility>

namespace reference {
namespace {

using Assignment = unsigned[3];  // the address that stands for variable 1 and for variable 2

bool matches(unsigned kind, unsigned variable, const Node &node, const Assignment &address) {
    if (kind == wildcard) return true;
    if (kind != node.kind) return false;
    return kind == full_fence || address[variable] == node.address;
}

// Hands over the routes of an order, first by node numbers first, until `enough` says so.
class Enumeration {
public:
    using Enough = std::function<bool(const Route &)>;

    Enumeration(const Request &request, const Order &order, Enough enough)
        : next_(request.nodes.size()),
          on_route_(request.nodes.size(), false),
          route_{order.first},
          to_(order.second),
          enough_(std::move(enough)) {
        for (const Edge &edge : request.edges) next_[edge.from].push_back(edge.to);
        for (std::vector<unsigned> &nodes : next_) std::sort(nodes.begin(), nodes.end());
        on_route_[order.first] = true;
        extend();
    }

private:
    // Is there a way from this node to the last one past the nodes on the route? Asked where the route forks, it
    // keeps the steps to few where routes are few, however many ways lead nowhere.
    bool leads_on(unsigned from) const {
        std::vector<bool> seen = on_route_;
        std::vector<unsigned> waiting{from};
        while (!waiting.empty() && waiting.back() != to_) {
            const unsigned at = waiting.back();
            waiting.pop_back();
            for (unsigned node : next_[at]) {
                if (seen[node]) continue;
                seen[node] = true;
                waiting.push_back(node);
            }
        }
        return !waiting.empty();
    }

    bool extend() {
        const unsigned at = route_.back();
        if (at == to_) return enough_(route_);
        for (unsigned node : next_[at]) {
            if (on_route_[node] || (next_[at].size() > 1 && !leads_on(node))) continue;
            route_.push_back(node);
            on_route_[node] = true;
            const bool stop = extend();
            on_route_[node] = false;
            route_.pop_back();
            if (stop) return true;
        }
        return false;
    }

    std::vector<std::vector<unsigned>> next_;  // the nodes after each node, rising
    std::vector<bool> on_route_;
    Route route_;
    const unsigned to_;
    const Enough enough_;
};

// Whether some rule fits the nodes at two places of a route. A long route has many places and few labels, so each
// two labels are judged once.
class Fitting {
public:
    Fitting(const Request &request, const Route &route) {
        std::map<std::pair<unsigned, unsigned>, std::size_t> numbers;
        std::vector<Node> labels;
        for (unsigned number : route) {
            const Node &node = request.nodes[number];
            const auto [at, fresh] = numbers.insert({{node.kind, node.address}, labels.size()});
            if (fresh) labels.push_back(node);
            label_at_.push_back(at->second);
        }
        for (const Node &left : labels) {
            fits_.emplace_back();
            for (const Node &right : labels) fits_.back().push_back(some_rule_fits(request, left, right));
        }
    }

    bool operator()(std::size_t p, std::size_t q) const { return fits_[label_at_[p]][label_at_[q]]; }

private:
    static bool some_rule_fits(const Request &request, const Node &left, const Node &right) {
        return std::any_of(request.rules.begin(), request.rules.end(),
                           [&](const Rule &rule) { return fits(rule, left, right); });
    }

    std::vector<std::size_t> label_at_;  // for each place the number of its label
    std::vector<std::vector<bool>> fits_;
};

}  // namespace

// One assignment must do for both sides. Only the addresses of the two nodes can match anything.
bool fits(const Rule &rule, const Node &left, const Node &right) {
    for (unsigned one : {left.address, right.address}) {
        for (unsigned two : {left.address, right.address}) {
            const Assignment address = {0, one, two};
            if (matches(rule.left_kind, rule.left_variable, left, address) &&
                matches(rule.right_kind, rule.right_variable, right, address))
                return true;
        }
    }
    return false;
}

// before[p][q], the same as after[q][p]: a rule fits the nodes at places p and q, or one between is ordered after p
// and before q.
bool orders_its_ends(const Request &request, const Route &route) {
    const std::size_t n = route.size();
    const Fitting some_rule_fits(request, route);
    std::vector<std::bitset<most_nodes>> before(n), after(n);
    for (std::size_t apart = 1; apart < n; ++apart) {
        for (std::size_t p = 0; p + apart < n; ++p) {
            const std::size_t q = p + apart;
            const bool by_one_between = (before[p] & after[q]).any();
            before[p][q] = after[q][p] = by_one_between || some_rule_fits(p, q);
        }
    }
    return before[0][n - 1];
}

std::vector<Route> routes(const Request &request, const Order &order) {
    std::vector<Route> all;
    Enumeration(request, order, [&](const Route &found) {
        all.push_back(found);
        return false;
    });
    return all;
}

Route first_unordered(const Request &request, const Order &order) {
    Route shown;
    Enumeration(request, order, [&](const Route &found) {
        if (orders_its_ends(request, found)) return false;
        shown = found;
        return true;
    });
    return shown;
}

}  // namespace reference
