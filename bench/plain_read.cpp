// Reading a request: record by record into the graph, then judged one kind after the other.
#include "fence_request.hpp"
#include "plain.hpp"

namespace plain {
namespace {

bool bad_node(const Node &n) { return n.kind > 2 || (n.kind == 2 && n.address != 0); }

// For each node the nodes that an edge or order leads to already.
using Rows = std::vector<Nodes>;

bool bad_pair(unsigned from, unsigned to, Rows &rows) {
    if (from >= rows.size() || to >= rows.size() || rows[from][to]) return true;
    rows[from].set(to);
    return false;
}

bool bad_edge(const Edge &e, Rows &rows) { return e.weight == 0 || bad_pair(e.from, e.to, rows); }

bool bad_order(const Order &o, Rows &rows) { return o.first == o.second || bad_pair(o.first, o.second, rows); }

bool bad_rule(const Rule &r) {
    if (r.left_kind > 3 || r.right_kind > 3) return true;
    const bool left = r.left_kind < 2, right = r.right_kind < 2;
    if (r.left_variable != (left ? 1 : 0)) return true;
    if (!right) return r.right_variable != 0;
    return r.right_variable != 1 && !(left && r.right_variable == 2);
}

Refusal too_many(const Graph &g) {
    if (g.node_count > most_nodes) return {2, most_nodes};
    if (g.edge_count > most_edges) return {2, g.node_count + most_edges};
    if (g.rule_count > most_rules) return {2, g.node_count + g.edge_count + most_rules};
    if (g.order_count > most_orders) return {2, g.node_count + g.edge_count + g.rule_count + most_orders};
    return {0, 0};
}

Refusal judge(const Graph &g) {
    Rows edge_rows(g.node_count), order_rows(g.node_count);
    std::uint64_t record = 0;
    bool to_fence = false, from_fence = false;
    for (unsigned i = 0; i < g.node_count; ++i, ++record)
        if (bad_node(g.nodes[i])) return {3, record};
    for (unsigned i = 0; i < g.edge_count; ++i, ++record)
        if (bad_edge(g.edges[i], edge_rows)) return {4, record};
    for (unsigned i = 0; i < g.rule_count; ++i, ++record) {
        const Rule &r = g.rules[i];
        if (bad_rule(r)) return {5, record};
        to_fence |= r.left_kind == 3 && r.right_kind == 2;
        from_fence |= r.left_kind == 2 && r.right_kind == 3;
    }
    for (unsigned i = 0; i < g.order_count; ++i, ++record)
        if (bad_order(g.orders[i], order_rows)) return {6, record};
    return {to_fence && from_fence ? 0u : 7u, 0};
}

// Records without room are only counted: a file that has such is refused.
template <class Kept, std::size_t room>
void keep(const Kept &record, Kept (&list)[room], unsigned &count) {
    if (count < room) list[count] = record;
    ++count;
}

}  // namespace

// The reader of fence::Request::read without its lists, which would add an eighth to the time of a short run.
Refusal read(const std::uint8_t *file, std::size_t length, Graph &g) {
    using fence::Record;
    g.node_count = g.edge_count = g.rule_count = g.order_count = 0;
    fence::Reader at({file, length});
    while (at.next(Record::node)) keep({at.byte(0), at.byte(1)}, g.nodes, g.node_count);
    while (at.next(Record::edge)) keep({at.number(0), at.number(1), at.number(2)}, g.edges, g.edge_count);
    while (at.next(Record::rule)) keep({at.byte(0), at.byte(1), at.byte(2), at.byte(3)}, g.rules, g.rule_count);
    while (at.next(Record::order)) keep({at.number(0), at.number(1)}, g.orders, g.order_count);
    if (!at.next(Record::end) || at.end() != length) return {1, at.end()};
    const Refusal refusal = too_many(g);
    return refusal.answer == 0 ? judge(g) : refusal;
}

}  // namespace plain
