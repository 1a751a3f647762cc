// See classics.hpp. Addresses: 1 and 2 are the two sides' flags, 3 is turn, 4 a number or index, 5 the data.
#include "classics.hpp"

namespace corpus {
namespace {

using reference::load;
using reference::store;

void critical_section(Builder &b, unsigned entered) {
    const unsigned read = b.step(load, 5), write = b.step(store, 5);
    b.order(entered, read);
    b.order(entered, write);
    const unsigned left = b.step(store, 1);
    b.order(read, left);
    b.order(write, left);
}

void dekker(Builder &b) {
    const unsigned wish = b.step(store, 1);
    unsigned other = 0;
    b.loop([&] {
        other = b.step(load, 2);
        b.branch(2, [&] {
            b.step(store, 1);
            b.loop([&] { b.step(load, 3); });
            b.order(b.step(store, 1), other);
        });
    });
    b.order(wish, other);
    critical_section(b, other);
}

void peterson(Builder &b) {
    const unsigned flag = b.step(store, 1), turn = b.step(store, 3);
    unsigned other = 0, whose = 0;
    b.loop([&] { other = b.step(load, 2), whose = b.step(load, 3); });
    b.order(flag, turn);
    b.order(flag, other);
    b.order(turn, whose);
    critical_section(b, other);
}

void bakery(Builder &b) {
    const unsigned choosing = b.step(store, 1);
    unsigned seen = 0, busy = 0, theirs = 0;
    b.loop([&] { seen = b.step(load, 4); });
    const unsigned number = b.step(store, 4), chosen = b.step(store, 1);
    b.loop([&] {
        b.loop([&] { busy = b.step(load, 2); });
        b.loop([&] { theirs = b.step(load, 4); });
    });
    b.order(choosing, seen);
    b.order(number, chosen);
    b.order(chosen, busy);
    b.order(busy, theirs);
    critical_section(b, theirs);
}

void seqlock(Builder &b) {
    unsigned before = 0, data = 0, after = 0;
    b.loop([&] { before = b.step(load, 4), data = b.step(load, 5), after = b.step(load, 4); });
    b.order(before, data);
    b.order(data, after);
    const unsigned odd = b.step(store, 4), write = b.step(store, 5), even = b.step(store, 4);
    b.order(odd, write);
    b.order(write, even);
}

// The owner's side of a work-stealing deque.
void deque(Builder &b) {
    b.step(load, 1);
    const unsigned bottom = b.step(store, 1), top = b.step(load, 2);
    unsigned item = 0, back = 0;
    b.branch(3, [&] { item = b.step(load, 5), back = b.step(store, 1); });
    b.order(bottom, top);
    b.order(top, item);
    b.order(item, back);
}

}  // namespace

void classics(Builder &b) {
    void (*const all[])(Builder &) = {dekker, peterson, bakery, seqlock, deque};
    for (unsigned i = b.random().below(5); !b.full(); ++i) all[i % 5](b);
}

}  // namespace corpus
