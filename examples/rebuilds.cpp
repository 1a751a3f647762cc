// rebuilds.cpp: ninety rebuilds in a row of one procedure, while its orders change now and then, done in three
// ways:
//
//     other   an inserter that fences every order asked, held or not, on its own last output
//     ours    this library: run, on what its last rebuild wrote; a fence that stands stays
//     anew    this library: strip, then run; all fences off, and the lightest for today's orders
//
//     rebuilds FOLDER     prints the fences and what they weigh, by rebuild; writes the same to FOLDER/rebuilds.csv
#include <deque>
#include <fstream>
#include <iomanip>
#include <iostream>
#include <random>
#include <set>

#include "rules.hpp"

namespace {

using fence::Edge, fence::Order, fence::Request;
using File = std::vector<std::uint8_t>;

constexpr int rebuilds = 90;
constexpr std::size_t node_count = 40, first_orders = 5;

struct Draw {
    std::mt19937 engine{2};  // its numbers are the same everywhere, those of a distribution aren't
    std::uint16_t below(unsigned bound) { return static_cast<std::uint16_t>(engine() % bound); }
};

struct Fences {
    std::size_t number;
    std::uint64_t weight;  // of the edges that they stand on: what they cost
};

struct Rebuild {
    bool changed;  // an order came
    std::size_t orders, open;
    Fences ours, anew, other;
};

// A chain with branches ahead and loops back; edge numbers and weights as drawn.
Request procedure(Draw &draw) {
    Request made;
    made.rules = example::arm_like();
    for (std::size_t node = 0; node < node_count; ++node) {
        const bool is_load = draw.below(2) == 1;
        const std::uint16_t address = draw.below(8);
        is_load ? made.load(address) : made.store(address);
    }
    const auto edge = [&](unsigned from, unsigned to) { made.edge(from, to, 1 + draw.below(20)); };
    for (unsigned node = 0; node + 1 < node_count; ++node) edge(node, node + 1);
    for (unsigned node = 1; node + 5 < node_count; node += 4) edge(node, node + 2 + draw.below(4));
    for (unsigned node = 7; node < node_count; node += 9) edge(node, node - 2 - draw.below(4));
    return made;
}

// A new order at the end; beyond the first few, the oldest goes half of the time.
void change(std::vector<Order> &orders, Draw &draw) {
    if (orders.size() >= first_orders && draw.below(2) == 0) orders.erase(orders.begin());
    for (;;) {
        const std::uint16_t first = draw.below(node_count - 8);
        const Order drawn{first, static_cast<std::uint16_t>(first + 1 + draw.below(8)), ""};
        bool stands = false;
        for (const Order &o : orders) stands = stands || (o.first == drawn.first && o.second == drawn.second);
        if (!stands) return orders.push_back(drawn);
    }
}

// The first edge of a shortest route, if there is a route.
std::optional<std::size_t> first_edge(const Request &r, const Order &order) {
    std::vector<std::optional<std::size_t>> led(r.nodes.size());  // the first edge of the route to this node
    std::deque<std::uint16_t> waiting{order.first};
    while (!waiting.empty() && !led[order.second]) {
        const std::uint16_t node = waiting.front();
        waiting.pop_front();
        for (std::size_t edge = 0; edge < r.edges.size(); ++edge) {
            const std::uint16_t to = r.edges[edge].to;
            if (r.edges[edge].from != node || to == order.first || led[to]) continue;
            led[to] = node == order.first ? edge : *led[node];
            waiting.push_back(to);
        }
    }
    return led[order.second];
}

// The other inserter: no order is held until it is fenced, and nothing tells an old fence from none. Orders that
// share an edge share its fence. Its graph stays in memory, where no limit stops it.
void fence_every_order(Request &r) {
    std::set<std::size_t> chosen;
    for (const Order &order : r.orders)
        if (const auto edge = first_edge(r, order)) chosen.insert(*edge);
    for (std::size_t edge : chosen) {
        const std::uint16_t added = r.full_fence();
        r.edge(added, r.edges[edge].to, r.edges[edge].weight);
        r.edges[edge].to = added;
    }
}

std::size_t count_open(const Request &r) {
    const File file = r.bytes();
    std::size_t open = 0;
    for (std::size_t order = 0; order < r.orders.size(); ++order) open += !fence::ask(file, order).value().held();
    return open;
}

// A fence has one edge from it, of the weight of the edge that it stands on.
Fences fences_of(const Request &r) {
    Fences found{r.nodes.size() - node_count, 0};
    for (const Edge &edge : r.edges)
        if (edge.from >= node_count) found.weight += edge.weight;
    return found;
}

Fences fences_anew(const File &file) {
    const fence::Written done = fence::rerun(file, node_count).value();
    return {done.fences, done.weight};
}

[[noreturn]] void end(const char *why) {
    std::cerr << why << '\n';
    std::exit(1);
}

// On the library's side only run decides; a rebuild without an open order must leave every byte alone.
Rebuild rebuild(Request &ours, Request &other, bool changed) {
    const std::size_t open = count_open(ours);
    const File before = ours.bytes();
    const File after = fence::run(before).value().file;
    if ((open == 0) != (after == before) || (open > 0 && !changed)) end("a rebuild moved without a new open order");
    ours = Request::read(after).value();
    fence_every_order(other);
    const Rebuild now{changed, ours.orders.size(), open, fences_of(ours), fences_anew(after), fences_of(other)};
    if (now.anew.weight > now.ours.weight) end("strip, then run left more weight than run");
    return now;
}

void show_head() {
    std::cout << "                            fences            weight\n"
                 "rebuild  orders  open   ours  anew other   ours  anew other\n";
}

void show(int number, const Rebuild &now, const Order &newest) {
    std::cout << std::setw(7) << number << std::setw(8) << now.orders << std::setw(6) << now.open << ' ';
    for (const Fences &f : {now.ours, now.anew, now.other}) std::cout << std::setw(6) << f.number;
    std::cout << ' ';
    for (const Fences &f : {now.ours, now.anew, now.other}) std::cout << std::setw(6) << f.weight;
    if (now.changed && number > 0)
        std::cout << "   new order (" << newest.first << ',' << newest.second << ')'
                  << (now.open ? "" : ", held already");
    std::cout << '\n';
}

void save(const std::vector<Rebuild> &all, const std::string &path) {
    std::ofstream csv(path);
    csv << "rebuild,new order,orders,open,ours,anew,other,ours weight,anew weight,other weight\n";
    for (std::size_t number = 0; number < all.size(); ++number) {
        const Rebuild &now = all[number];
        csv << number << ',' << now.changed << ',' << now.orders << ',' << now.open;
        for (const Fences &f : {now.ours, now.anew, now.other}) csv << ',' << f.number;
        for (const Fences &f : {now.ours, now.anew, now.other}) csv << ',' << f.weight;
        csv << '\n';
    }
    if (!csv.flush()) end("rebuilds.csv could not be written");
}

// Strips the last output and asks for the first orders again: what is left must be the first file.
bool first_bytes_back(const Request &last, const Request &first) {
    Request stripped = Request::read(fence::strip(last.bytes(), node_count).value().file).value();
    stripped.orders = first.orders;
    return stripped.bytes() == first.bytes();
}

}  // namespace

int main(int count, char **words) {
    Draw draw;
    Request first = procedure(draw);
    while (first.orders.size() < first_orders) change(first.orders, draw);
    Request ours = first, other = first;
    std::vector<Rebuild> all;
    show_head();
    for (int number = 0; number < rebuilds; ++number) {
        const bool changed = number == 0 || draw.below(8) == 0;
        if (changed && number > 0) change(ours.orders, draw);
        other.orders = ours.orders;
        all.push_back(rebuild(ours, other, changed));
        show(number, all.back(), ours.orders.back());
    }
    save(all, (count > 1 ? words[1] : std::string(".")) + "/rebuilds.csv");
    const bool back = first_bytes_back(ours, first);
    std::cout << "stripped to " << node_count
              << " nodes, with the first orders: " << (back ? "the first bytes" : "OTHER BYTES") << '\n';
    return back ? 0 : 1;
}
