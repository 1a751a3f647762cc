// What is compared: groups of generated files, and how often each call is made on them.
#ifndef GROUPS_HPP
#define GROUPS_HPP

#include "compare.hpp"
#include "generate.hpp"

struct Group {
    const char *name;
    void (*compare)(Comparison &, generate::Random &);  // one file of the group
    unsigned files;
};

const std::vector<Group> &groups();

// Every graph of three nodes over a store, a load and a fence, self-edges and all, with all six orders: run, and
// ask for one of the orders. Returns the number of files.
unsigned compare_tiny(Comparison &comparison);

#endif
