// Run: read, find the open orders, choose the cut, write.
#include "plain.hpp"

#include <cstring>

namespace plain {
namespace {

std::uint8_t *put_edge(std::uint8_t *at, unsigned from, unsigned to, unsigned weight) {
    const std::uint8_t record[] = {'E',
                                   'D',
                                   std::uint8_t(from),
                                   std::uint8_t(from >> 8),
                                   std::uint8_t(to),
                                   std::uint8_t(to >> 8),
                                   std::uint8_t(weight),
                                   std::uint8_t(weight >> 8)};
    std::memcpy(at, record, sizeof record);
    return at + sizeof record;
}

std::uint8_t *copy(std::uint8_t *at, const std::uint8_t *from, std::size_t bytes) {
    std::memcpy(at, from, bytes);
    return at + bytes;
}

void write(const std::uint8_t *file, std::size_t length, const Graph &g, const Cut &cut, std::uint8_t *out) {
    const std::size_t nodes = 4 * g.node_count, edges = 8 * g.edge_count;
    out = copy(out, file, nodes);
    for (std::size_t i = cut.edges.count(); i > 0; --i)
        out = copy(out, reinterpret_cast<const std::uint8_t *>("ND\2"), 4);
    unsigned fence = g.node_count;
    for (unsigned i = 0; i < g.edge_count; ++i)
        out = put_edge(out, g.edges[i].from, cut.edges[i] ? fence++ : g.edges[i].to, g.edges[i].weight);
    fence = g.node_count;
    for (unsigned i = 0; i < g.edge_count; ++i)
        if (cut.edges[i]) out = put_edge(out, fence++, g.edges[i].to, g.edges[i].weight);
    copy(out, file + nodes + edges, length - nodes - edges);
}

}  // namespace

fence_report run(const std::uint8_t *file, std::size_t length, std::uint8_t *out, std::size_t room) {
    Graph graph;
    const Refusal refusal = read(file, length, graph);
    if (refusal.answer != 0) return {refusal.answer, refusal.place, 0, 0, 0};
    const Fits fits = fits_of(graph);
    const Cut cut = chosen(graph, fits, open_orders(graph, fits));
    const std::size_t fences = cut.edges.count(), written = length + 12 * fences;
    if (graph.node_count + fences > most_nodes || graph.edge_count + fences > most_edges) return {9, 0, 0, 0, 0};
    if (written > room) return {11, 0, 0, 0, 0};
    write(file, length, graph, cut, out);
    return {0, 0, fences, cut.weight, written};
}

}  // namespace plain
