// An independent program for run, ask and strip, written from the scope's words alone and as literally as they
// allow. It is slow on purpose: every route is enumerated, and every refusal is found and then ranked. So it takes
// files of any size, but only such as have few routes between the ends of an order.
#ifndef REFERENCE_HPP
#define REFERENCE_HPP

#include <cstddef>
#include <cstdint>
#include <vector>

namespace reference {

using Bytes = std::vector<std::uint8_t>;
using Number = std::uint64_t;

enum Kind : unsigned { store = 0, load = 1, full_fence = 2, wildcard = 3 };

constexpr std::size_t most_nodes = 512, most_edges = 1024, most_rules = 32, most_orders = 32;

struct Node {
    unsigned kind, address;
};
struct Edge {
    unsigned from, to, weight;
};
struct Rule {
    unsigned left_kind, left_variable, right_kind, right_variable;
};
struct Order {
    unsigned first, second;
};

struct Request {
    std::vector<Node> nodes;
    std::vector<Edge> edges;
    std::vector<Rule> rules;
    std::vector<Order> orders;
};

struct Refusal {
    Number answer, place;
};

// reference_read.cpp: bytes to a request and back.
struct Reading {
    Refusal refusal;  // answer 0: none
    Request request;
};
Reading read(const Bytes &file);
Bytes written(const Request &request);

// reference_held.cpp: routes and what they order.
using Route = std::vector<unsigned>;  // node numbers
bool fits(const Rule &rule, const Node &left, const Node &right);
bool orders_its_ends(const Request &request, const Route &route);
std::vector<Route> routes(const Request &request, const Order &order);
Route first_unordered(const Request &request, const Order &order);  // empty: held

// reference_cut.cpp: the chosen cut, as a rising list of edge numbers.
using Cut = std::vector<unsigned>;
Cut chosen_cut(const Request &request);
Cut cut_by_subsets(const Request &request);   // tries every set of the edges that matter
Cut cut_by_deciding(const Request &request);  // takes or leaves one edge after the other, with a bound
Number weight_of(const Request &request, const Cut &cut);

// reference.cpp: the three operations. `room` is the length of the lent buffer; `out` is what must be written to
// it.
struct Report {
    Number answer, place, fences, weight;
    Bytes out;
};
struct Shown {
    Number answer, place;
    Route route;
};
Report run(const Bytes &file, std::size_t room);
Shown ask(const Bytes &file, Number order, std::size_t room);
Report strip(const Bytes &file, Number count, std::size_t room);

}  // namespace reference

#endif
