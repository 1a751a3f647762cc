// See groups.hpp.
#include "groups.hpp"

#include <algorithm>

#include "programs.hpp"

using namespace reference;
using generate::Random;

namespace {

// A buffer's length that is interesting for what is to be written: exact, one less, one more, none, or ample.
std::size_t room_for(Random &random, std::size_t exact) {
    switch (random.below(8)) {
        case 0: return exact;
        case 1: return exact == 0 ? 0 : exact - 1;
        case 2: return exact + 1;
        case 3: return 0;
        case 4: return random.below(exact + 1);
        default: return ample;
    }
}

// A number of entries for a route: mostly just enough.
std::size_t entries_for(Random &random) {
    if (random.chance(90)) return most_nodes;
    return random.chance(50) ? random.between(most_nodes - 2, most_nodes + 2) : random.below(most_nodes);
}

Number order_for(Random &random, std::size_t orders) {
    if (random.chance(85) && orders > 0) return random.below(orders);
    const Number others[] = {orders, orders + 1, Number{1} << 32, Number{1} << 63, ~Number{0}};
    return others[random.below(5)];
}

Number count_for(Random &random, std::size_t nodes) {
    const Number counts[] = {
        nodes, nodes - 1, 0, nodes + 1, random.below(nodes + 1), Number{1} << 63, Number{1} << 32 | nodes};
    return counts[random.below(7)];
}

Request small_or_large(Random &random, unsigned percent_small) {
    return random.chance(percent_small) ? generate::small(random) : generate::large(random);
}

// All three operations on one file, and strip on what run wrote.
void compare_file(Comparison &comparison, Random &random, const Bytes &file) {
    const Reading reading = read(file);
    const Report whole = comparison.run(file, ample);
    comparison.run(file, room_for(random, whole.out.size()));
    for (unsigned i = 0; i < 2; ++i) {
        const Number order = order_for(random, reading.request.orders.size());
        comparison.ask(file, order, entries_for(random));
    }
    const std::size_t nodes = reading.request.nodes.size();
    const Number count = count_for(random, nodes);
    comparison.strip(file, count, room_for(random, file.size()));
    if (whole.answer == 0 && whole.fences > 0) comparison.strip(whole.out, nodes, room_for(random, file.size()));
}

// Run, other orders, run again; then off with all the fences, or with some.
void compare_chain(Comparison &comparison, Random &random, Request request) {
    const unsigned first_nodes = static_cast<unsigned>(request.nodes.size());
    for (unsigned runs = random.between(2, 4); runs > 0; --runs) {
        const Bytes file = written(request);
        const Report report = comparison.run(file, ample);
        if (report.answer != 0) return;
        comparison.run(report.out, ample);
        request = read(report.out).request;
        const unsigned named = random.chance(70) ? first_nodes : static_cast<unsigned>(request.nodes.size());
        request.orders = generate::orders(random, named, 5);
    }
    const Bytes file = written(request);
    comparison.strip(file, first_nodes, ample);
    comparison.strip(file, random.between(first_nodes, static_cast<unsigned>(request.nodes.size())), ample);
    comparison.strip(file, first_nodes - std::min(1u, first_nodes), ample);
}

// Strip on what run wrote, touched afterwards.
void compare_unfit(Comparison &comparison, Random &random) {
    Request request = small_or_large(random, 80);
    const std::size_t nodes = request.nodes.size();
    const Report report = run(written(request), ample);
    if (report.answer == 0) request = read(report.out).request;
    const Bytes file = written(generate::unfit(random, request));
    for (Number count = nodes; count <= nodes + report.fences; ++count) comparison.strip(file, count, ample);
}

// Of number 0 to 512 * 27 - 1: a bit for each of nine edges, a digit for each of three labels.
Bytes tiny_file(unsigned number) {
    const Node kinds[] = {{store, 1}, {load, 2}, {full_fence, 0}};
    const unsigned edges = number % 512, labels = number / 512;
    Request request;
    request.nodes = {kinds[labels % 3], kinds[labels / 3 % 3], kinds[labels / 9]};
    for (unsigned i = 0; i < 9; ++i)
        if (edges >> i & 1) request.edges.push_back({i / 3, i % 3, 1 + (number + i) % 3});
    request.rules = {{3, 0, 2, 0}, {2, 0, 3, 0}, {0, 1, 0, 2}, {1, 1, 0, 1}};
    request.orders = {{0, 1}, {0, 2}, {1, 0}, {1, 2}, {2, 0}, {2, 1}};
    return written(request);
}

void small_files(Comparison &comparison, Random &random) {
    compare_file(comparison, random, written(generate::small(random)));
}
void large_files(Comparison &comparison, Random &random) {
    compare_file(comparison, random, written(generate::large(random)));
}
void branching_files(Comparison &comparison, Random &random) {
    compare_file(comparison, random, written(generate::branching(random)));
}
void detour_files(Comparison &comparison, Random &random) {
    compare_file(comparison, random, written(generate::detours(random)));
}
void limit_files(Comparison &comparison, Random &random) {
    compare_file(comparison, random, written(generate::at_limits(random)));
}
void spoiled_files(Comparison &comparison, Random &random) {
    compare_file(comparison, random, written(generate::spoiled(random, small_or_large(random, 90))));
}
void damaged_files(Comparison &comparison, Random &random) {
    compare_file(comparison, random, generate::damaged(random, written(generate::small(random))));
}
void damaged_limit_files(Comparison &comparison, Random &random) {
    compare_file(comparison, random, generate::damaged(random, written(generate::at_limits(random))));
}
void soups(Comparison &comparison, Random &random) { compare_file(comparison, random, generate::soup(random)); }
void chains(Comparison &comparison, Random &random) {
    compare_chain(comparison, random, small_or_large(random, 80));
}

}  // namespace

const std::vector<Group> &groups() {
    static const std::vector<Group> all = {
        {"small", small_files, 2600},
        {"large", large_files, 800},
        {"branching", branching_files, 400},
        {"detours", detour_files, 400},
        {"limits", limit_files, 250},
        {"spoiled", spoiled_files, 1200},
        {"damaged", damaged_files, 1200},
        {"damaged limits", damaged_limit_files, 200},
        {"soup", soups, 400},
        {"chains", chains, 500},
        {"unfit", compare_unfit, 800},
    };
    return all;
}

unsigned compare_tiny(Comparison &comparison) {
    const unsigned files = 512 * 27;
    for (unsigned i = 0; i < files; ++i) {
        comparison.run(tiny_file(i), ample);
        comparison.ask(tiny_file(i), i % 6, most_nodes);
    }
    return files;
}
