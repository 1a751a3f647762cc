// Control-flow graphs built the way a compiler builds them: steps, branches and loops.
#ifndef SHAPES_HPP
#define SHAPES_HPP

#include <functional>
#include <set>

#include "generate.hpp"

namespace corpus {

using generate::Random;

// A graph with how deep in loops each node lies, and the orders that the procedure itself asks for, if any.
struct Shape {
    std::vector<reference::Node> nodes;
    std::vector<unsigned> depth;
    std::vector<std::pair<unsigned, unsigned>> edges, orders;
};

// Grows a shape at its loose ends until it has `size` nodes; what is built beyond that is left out.
class Builder {
public:
    Builder(Random &random, unsigned size) : random_(random), size_(size) {}

    bool full() const { return shape_.nodes.size() >= size_; }
    Shape shape() const { return shape_; }
    Random &random() { return random_; }

    // A new node behind every loose end; it is the only loose end then. The number of the node.
    unsigned step(unsigned kind, unsigned address);
    unsigned step();  // a store or load of some address

    // Arms from one node on, each of which may be empty.
    void branch(unsigned arms, const std::function<void()> &arm);

    // A node that the body comes back to, and leaves from.
    void loop(const std::function<void()> &body);

    void order(unsigned first, unsigned second);

private:
    void edge(unsigned from, unsigned to);

    Random &random_;
    unsigned size_, depth_ = 0;
    Shape shape_;
    std::set<std::pair<unsigned, unsigned>> pairs_;
    std::set<unsigned> ends_;
};

struct Family {
    const char *name;
    void (*build)(Builder &);
};
const std::vector<Family> &families();

}  // namespace corpus

#endif
