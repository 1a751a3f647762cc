// The three operations, as the scope tells them.
#include "reference.hpp"

#include <algorithm>

namespace reference {
namespace {

Report refused(Number answer, Number place) { return {answer, place, 0, 0, {}}; }

Report wrote(const Request &request, Number fences, Number weight, std::size_t room) {
    const Bytes out = written(request);
    if (room < out.size()) return refused(11, 0);
    return {0, 0, fences, weight, out};
}

void add_fence(Request &request, unsigned edge) {
    const unsigned fence = static_cast<unsigned>(request.nodes.size());
    const Edge cut = request.edges[edge];
    request.nodes.push_back({full_fence, 0});
    request.edges[edge] = {cut.from, fence, cut.weight};
    request.edges.push_back({fence, cut.to, cut.weight});
}

// Takes the highest node off and adds to `weight`. False where the node isn't as run adds it.
bool take_off(Request &request, Number &weight) {
    const std::size_t node = request.nodes.size() - 1;
    if (request.nodes[node].kind != full_fence) return false;
    std::vector<std::size_t> ending, starting;
    for (std::size_t i = 0; i < request.edges.size(); ++i) {
        if (request.edges[i].to == node) ending.push_back(i);
        if (request.edges[i].from == node) starting.push_back(i);
    }
    if (ending.size() != 1 || starting.size() != 1 || ending[0] == starting[0]) return false;
    if (starting[0] != request.edges.size() - 1) return false;
    Edge &kept = request.edges[ending[0]];
    const Edge last = request.edges.back();
    if (kept.weight != last.weight) return false;
    for (const Edge &edge : request.edges)
        if (edge.from == kept.from && edge.to == last.to) return false;
    kept.to = last.to;
    weight += kept.weight;
    request.edges.pop_back();
    request.nodes.pop_back();
    return true;
}

}  // namespace

Report run(const Bytes &file, std::size_t room) {
    const Reading reading = read(file);
    if (reading.refusal.answer != 0) return refused(reading.refusal.answer, reading.refusal.place);
    Request request = reading.request;
    const Cut cut = chosen_cut(request);
    if (request.nodes.size() + cut.size() > most_nodes) return refused(9, 0);
    if (request.edges.size() + cut.size() > most_edges) return refused(9, 0);
    for (unsigned edge : cut) add_fence(request, edge);
    return wrote(request, cut.size(), weight_of(reading.request, cut), room);
}

Shown ask(const Bytes &file, Number order, std::size_t room) {
    const Reading reading = read(file);
    if (reading.refusal.answer != 0) return {reading.refusal.answer, reading.refusal.place, {}};
    if (order >= reading.request.orders.size()) return {8, 0, {}};
    if (room < most_nodes) return {11, 0, {}};
    return {0, 0, first_unordered(reading.request, reading.request.orders[order])};
}

Report strip(const Bytes &file, Number count, std::size_t room) {
    const Reading reading = read(file);
    if (reading.refusal.answer != 0) return refused(reading.refusal.answer, reading.refusal.place);
    Request request = reading.request;
    if (count > request.nodes.size()) return refused(10, 0);
    for (const Order &order : request.orders)
        if (order.first >= count || order.second >= count) return refused(10, 0);
    Number weight = 0;
    while (request.nodes.size() > count)
        if (!take_off(request, weight)) return refused(10, 0);
    return wrote(request, reading.request.nodes.size() - count, weight, room);
}

}  // namespace reference
