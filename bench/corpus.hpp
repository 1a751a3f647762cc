// Requests like those of real procedures, made from a seed: families of shapes, sizes, numbers of orders, weights.
#ifndef CORPUS_HPP
#define CORPUS_HPP

#include <string>
#include <vector>

#include "reference.hpp"

namespace corpus {

struct Instance {
    std::string family, weights;
    reference::Request request;
};

// All are the same for the same seed, on every machine. The corpus: all families, sizes from 8 to 62 nodes, numbers
// of orders, weights.
std::vector<Instance> instances(std::uint64_t seed);

// Procedures of 60 nodes for which times are promised: 32 orders, equal weights; and a line of 20 disjoint orders
// of three edges each, so with 3^20 equal cuts.
std::vector<Instance> sixty(std::uint64_t seed);

// Procedures of 60 nodes of all families and weights, with so many orders; 0 stands for all numbers in turn.
std::vector<Instance> sixty_of_all(std::uint64_t seed, unsigned orders);

// All families, numbers of orders and weights at 400 nodes up to the limit of 512, where a fence has no room any
// more.
std::vector<Instance> real(std::uint64_t seed);

}  // namespace corpus

#endif
