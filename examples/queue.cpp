// queue.cpp: fences for push of a single-producer queue, under strong and under weak rules.
//
//     queue FOLDER     prints what is open, cut and taken off again; writes queue_before.dot and queue_after.dot
#include <fstream>
#include <iostream>

#include "rules.hpp"

namespace {

using fence::Request;
using File = std::vector<std::uint8_t>;

// push: t = tail; while (t - head == size) {} slot[t] = item; tail = t + 1;
Request push(const example::Rules &rules) {
    Request r;
    r.rules = rules;
    const auto tail = r.load("tail"), head = r.load("head"), slot = r.store("slot"), moved = r.store("tail");
    r.edge(tail, head)
        .edge(head, head, 50)
        .path({head, slot, moved});  // (head, head) spins while the queue is full
    r.order(slot, moved, "slot before tail").order(head, slot, "head before slot");
    return r.order(tail, moved, "tail read before written");
}

void ask_each(const Request &r) {
    for (std::size_t order = 0; order < r.orders.size(); ++order) {
        const fence::Asked asked = fence::ask(r.bytes(), order).value();
        std::cout << "  " << r.order_name(order) << ": " << (asked.held() ? "held" : "open, on the route");
        for (std::uint16_t node : asked.route) std::cout << ' ' << node;
        std::cout << '\n';
    }
}

void show_fences(const Request &before, const Request &after) {
    for (const fence::Placed &p : fence::placed(before, after))
        std::cout << "    fence " << p.fence << " between " << before.name(p.from) << " and " << before.name(p.to)
                  << '\n';
}

void draw(const Request &request, const std::string &path) {
    std::ofstream dot(path);
    fence::draw(dot, request);
}

// Asks, runs, runs again and strips. Gives the graph after the first run, or ends where a promise is broken.
Request story(const std::string &title, const Request &before) {
    const File first = before.bytes();
    std::cout << title << '\n';
    ask_each(before);
    const fence::Written done = fence::run(first).value();
    const Request after = Request::read(done.file, before).value();
    std::cout << "  run: " << done.fences << " fences of weight " << done.weight << '\n';
    show_fences(before, after);
    const bool unchanged = fence::run(done.file).value().file == done.file;
    std::cout << "  run again: " << (unchanged ? "the same bytes" : "OTHER BYTES") << '\n';
    const bool back = fence::strip(done.file, before.nodes.size()).value().file == first;
    std::cout << "  strip to " << before.nodes.size() << " nodes: " << (back ? "the first bytes" : "OTHER BYTES")
              << '\n';
    if (!unchanged || !back) std::exit(1);
    return after;
}

}  // namespace

int main(int count, char **words) {
    const std::string folder = count > 1 ? words[1] : ".";
    story("x86-like rules", push(example::x86_like()));
    const Request before = push(example::arm_like());
    const Request after = story("ARM-like rules", before);
    draw(before, folder + "/queue_before.dot");
    draw(after, folder + "/queue_after.dot");
}
