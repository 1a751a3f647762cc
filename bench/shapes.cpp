// The families of shapes: see shapes.hpp. The classic algorithms stand in classics.cpp.
#include "shapes.hpp"

#include "classics.hpp"

namespace corpus {

// So many that fences have room below the limit of 1,024.
constexpr std::size_t most_edges = 960;

void Builder::edge(unsigned from, unsigned to) {
    if (shape_.edges.size() < most_edges && pairs_.insert({from, to}).second) shape_.edges.push_back({from, to});
}

unsigned Builder::step(unsigned kind, unsigned address) {
    if (full()) return size_ - 1;
    const unsigned node = static_cast<unsigned>(shape_.nodes.size());
    shape_.nodes.push_back({kind, address});
    shape_.depth.push_back(depth_);
    for (unsigned end : ends_) edge(end, node);
    ends_ = {node};
    return node;
}

unsigned Builder::step() {
    const unsigned kind = random_.below(2);
    return step(kind, random_.below(6));
}

void Builder::branch(unsigned arms, const std::function<void()> &arm) {
    step();
    const std::set<unsigned> start = ends_;
    std::set<unsigned> joined;
    for (unsigned i = 0; i < arms; ++i) {
        ends_ = start;
        arm();
        joined.insert(ends_.begin(), ends_.end());
    }
    ends_ = joined;
}

void Builder::loop(const std::function<void()> &body) {
    ++depth_;
    const unsigned head = step();
    body();
    for (unsigned end : ends_) edge(end, head);
    --depth_;
    ends_ = {head};
}

void Builder::order(unsigned first, unsigned second) {
    if (first != second) shape_.orders.push_back({first, second});
}

namespace {

void straight(Builder &b) {
    while (!b.full()) b.step();
}

void diamonds(Builder &b) {
    while (!b.full()) b.branch(2, [&] { b.step(); });
}

void nest(Builder &b, unsigned deep) {
    b.loop([&] {
        b.step();
        if (deep > 1) nest(b, deep - 1);
        b.step();
    });
}

void loop_nests(Builder &b) {
    while (!b.full()) nest(b, b.random().between(1, 4));
}

void switches(Builder &b) {
    while (!b.full()) b.branch(b.random().between(3, 6), [&] { b.step(), b.step(); });
}

void statement(Builder &b, unsigned deep) {
    const unsigned what = deep > 3 ? 0 : b.random().below(10);
    const auto block = [&] {
        for (unsigned i = b.random().below(3); i > 0; --i) statement(b, deep + 1);
    };
    if (what < 5)
        b.step();
    else if (what < 8)
        b.branch(2, block);
    else if (what < 9)
        b.loop(block);
    else
        b.branch(b.random().between(3, 5), block);
}

void structured(Builder &b) {
    while (!b.full()) statement(b, 0);
}

// A transaction: take locks, read the clock, validate, mark as committed, write back, release.
void commit(Builder &b) {
    const unsigned lock = 1, clock = 2, status = 3, log = 4, data = 5;
    while (!b.full()) {
        unsigned locked = 0, written = 0, released = 0;
        b.loop([&] { b.step(reference::load, log), locked = b.step(reference::store, lock); });
        const unsigned tick = b.step(reference::load, clock), tock = b.step(reference::store, clock);
        unsigned checked = 0;
        b.loop([&] { b.branch(2, [&] { checked = b.step(reference::load, lock); }); });
        const unsigned marked = b.step(reference::store, status);
        b.loop([&] { b.step(reference::load, log), written = b.step(reference::store, data); });
        b.loop([&] { released = b.step(reference::store, lock); });
        const unsigned idle = b.step(reference::store, status);
        const unsigned stages[] = {locked, tick, tock, checked, marked, written, released, idle};
        for (unsigned i = 0; i + 1 < 8; ++i)
            for (unsigned j = i + 1; j < 8 && j < i + 3; ++j) b.order(stages[i], stages[j]);
    }
}

}  // namespace

const std::vector<Family> &families() {
    static const std::vector<Family> all = {
        {"straight", straight}, {"diamonds", diamonds},     {"loop nests", loop_nests}, {"switches", switches},
        {"commit", commit},     {"structured", structured}, {"classic", classics},
    };
    return all;
}

}  // namespace corpus
