// A seeded generator of requests and files: the same seed gives the same files on every machine.
#ifndef GENERATE_HPP
#define GENERATE_HPP

#include <set>

#include "reference.hpp"

namespace generate {

using namespace reference;

// Two draws never stand in one call's arguments: their order would be the compiler's choice.
class Random {
public:
    explicit Random(std::uint64_t seed) : state_(seed) {}

    std::uint64_t next();  // splitmix64
    unsigned below(std::size_t bound) { return static_cast<unsigned>(next() % bound); }
    unsigned between(unsigned low, unsigned high) { return low + below(high - low + 1); }
    bool chance(unsigned percent) { return below(100) < percent; }

private:
    std::uint64_t state_;
};

// The 20 rules that answer 5 lets pass.
const std::vector<Rule> &legal_rules();

// Up to eight nodes: loops, self-edges, fences already there, orders both ways, many rule sets and weights.
Request small(Random &random);

// Lines, ladders and loops of up to 512 nodes, with few routes between any two nodes.
Request large(Random &random);

// Ladders of 100 to 512 nodes with many diamonds, and up to 32 orders over short stretches of them.
Request branching(Random &random);

// Several ways between two nodes, again and again, and orders over a few of these stretches. Some ways have a
// fence, or a store that orders what lies behind a load of its address, so that an open order often has routes that
// order its ends beside those that don't.
Request detours(Random &random);

// Counts at their limits, or one below or beyond.
Request at_limits(Random &random);

// A request with one or two faults just beyond what is allowed: answers 3 to 6, each in each way.
Request spoiled(Random &random, Request request);

// A request with added fences, touched so that strip may refuse it: a weight, an edge more, edges exchanged, a
// kind.
Request unfit(Random &random, Request request);

// A file spoiled in one to three ways: cut off, bytes changed, records moved, doubled, dropped or put in.
Bytes damaged(Random &random, Bytes file);

// Marks and bytes in any order.
Bytes soup(Random &random);

// Some rules, nearly always with the two that fences need.
std::vector<Rule> rules(Random &random);

// Edges between these nodes, mostly shuffled, with weights of some range.
using Pairs = std::set<std::pair<unsigned, unsigned>>;
std::vector<Edge> edges_of(Random &random, const Pairs &pairs);

// Other orders over the nodes below `nodes`, the numbers of their two nodes at most so far apart.
std::vector<Order> orders(Random &random, unsigned nodes, unsigned most, unsigned apart = most_nodes);

}  // namespace generate

#endif
