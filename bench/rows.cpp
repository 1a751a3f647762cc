// The cut as an integer program, which has a variable for each edge, 1 if it is cut: the edges of an unordered
// route must have a sum of at least 1. Prints a line with the edges' weights, then such rows as the edges chosen so
// far do not fulfil, a line of edge numbers for each.
//
//     rows REQUEST [EDGE...]
//
// For each order one route after the other, none over an edge of those before, until there is no more: several rows
// at once save rounds. There is no row just where the edges chosen are a cut.
#include <algorithm>
#include <cstdio>
#include <cstdlib>
#include <fstream>
#include <iterator>

#include "plain_route.hpp"

namespace {

using Bytes = std::vector<std::uint8_t>;
using Left = std::vector<std::uint16_t>;

Bytes contents(const char *path) {
    std::ifstream in(path, std::ios::binary);
    return {std::istreambuf_iterator<char>(in), {}};
}

void print_weights(const plain::Graph &graph) {
    for (unsigned i = 0; i < graph.edge_count; ++i) std::printf("%u ", graph.edges[i].weight);
    std::printf("\n");
}

void print_row(const plain::Path &path) {
    for (unsigned p = 0; p < path.length; ++p) std::printf("%u%c", path.edges[p], p + 1 < path.length ? ' ' : '\n');
}

void print_rows(plain::Routes &routes, const plain::Order &order, Left left) {
    plain::Path path;
    while (routes.unordered(order, left.data(), path) > 0) {
        print_row(path);
        for (unsigned p = 0; p < path.length; ++p) left[path.edges[p]] = 0;
    }
}

}  // namespace

int main(int arguments, char **argument) {
    if (arguments < 2) return 2;
    const Bytes file = contents(argument[1]);
    plain::Graph graph;
    if (plain::read(file.data(), file.size(), graph).answer != 0) return 1;
    print_weights(graph);
    Left left(graph.edge_count, 1);
    for (int i = 2; i < arguments; ++i) left.at(std::strtoul(argument[i], nullptr, 10)) = 0;
    const plain::Fits fits = plain::fits_of(graph);
    plain::Routes routes(graph, fits);
    for (unsigned i = 0; i < graph.order_count; ++i) print_rows(routes, graph.orders[i], left);
    return 0;
}
