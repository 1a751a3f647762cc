// How much stack the calls take: each runs on a stack painted beforehand, and the deepest touched byte is found.
#include <doctest/doctest.h>
#include <ucontext.h>

#include <algorithm>
#include <cstdio>
#include <functional>

#include "fence.h"
#include "generate.hpp"
#include "samples.hpp"

using namespace samples;

namespace {

using Word = std::uint64_t;

constexpr Word paint = 0x5A5A5A5A5A5A5A5A;
std::vector<Word> stack((4 << 20) / sizeof(Word), paint);
ucontext_t caller, callee;
std::function<void()> work;

void enter() { work(); }

// Bytes of stack that `call` touches. What it touched is painted again for the next call.
std::size_t stack_of(std::function<void()> call) {
    work = std::move(call);
    getcontext(&callee);
    callee.uc_stack.ss_sp = stack.data();
    callee.uc_stack.ss_size = stack.size() * sizeof(Word);
    callee.uc_link = &caller;
    makecontext(&callee, enter, 0);
    swapcontext(&caller, &callee);
    const auto touched = std::find_if(stack.begin(), stack.end(), [](Word word) { return word != paint; });
    const auto words = static_cast<std::size_t>(stack.end() - touched);
    std::fill(touched, stack.end(), paint);
    return words * sizeof(Word);
}

// 30 sources, each with an edge to every node of a line whose own edges are too heavy to cut. Shortcuts on the line
// have lower numbers than the last source's edges, so the search tries them first, though the least cut has none:
// it goes down one level for each edge but those of the line. It does so only below the weight of the cut that it
// starts from; that one takes two of the three edges beside the line, where the heaviest alone would do.
Request deep() {
    const unsigned sources = 30, length = 25, end = sources + length, fork = end + 2, tip = end + 3, beside = 3;
    Request request{std::vector<Node>(512, {store, 1}), {}, fence_rules, {}};
    const auto leave = [&](unsigned source) {
        for (unsigned node = sources; node < end; ++node) request.edges.push_back({source, node, 1});
    };
    for (unsigned source = 0; source + 1 < sources; ++source) leave(source);
    for (unsigned from = sources; from < end; ++from)
        for (unsigned to = from + 2; to < end; ++to) request.edges.push_back({from, to, 1});
    request.edges.resize(1024 - length - (length - 1) - beside);
    leave(sources - 1);
    for (unsigned node = sources; node + 1 < end; ++node) request.edges.push_back({node, node + 1, 65535});
    for (unsigned from : {end, end + 1}) request.edges.push_back({from, fork, 1000});
    request.edges.push_back({fork, tip, 1500});
    for (unsigned source = 0; source < sources; ++source) request.orders.push_back({source, end - 1});
    for (unsigned from : {end, end + 1}) request.orders.push_back({from, tip});
    return request;
}

struct Deepest {
    std::size_t run = 0, ask = 0, strip = 0;
};

void measure(const Request &request, Deepest &deepest) {
    const Bytes file = written(request);
    std::uint8_t out[FENCE_MAX_FILE];
    std::uint16_t route[FENCE_ROUTE_ENTRIES];
    const auto raise = [](std::size_t &most, std::size_t now) { most = std::max(most, now); };
    fence_report report{};
    raise(deepest.run, stack_of([&] { report = fence_run(file.data(), file.size(), out, sizeof out); }));
    if (!request.orders.empty())
        raise(deepest.ask, stack_of([&] { fence_ask(file.data(), file.size(), 0, route, FENCE_ROUTE_ENTRIES); }));
    if (report.answer != 0) return;
    const Bytes fenced(out, out + report.length);
    const std::size_t nodes = request.nodes.size();
    raise(deepest.strip, stack_of([&] { fence_strip(fenced.data(), fenced.size(), nodes, out, sizeof out); }));
}

}  // namespace

TEST_CASE("no call takes more stack than fence.h says") {
    generate::Random random(5);
    Deepest deepest;
    for (unsigned n : {2, 20, 511, 512}) measure(line(n), deepest);
    for (unsigned i = 0; i < 100; ++i) measure(generate::small(random), deepest);
    for (unsigned i = 0; i < 20; ++i) measure(generate::large(random), deepest);
    for (unsigned i = 0; i < 20; ++i) measure(generate::branching(random), deepest);
    for (unsigned i = 0; i < 20; ++i) measure(generate::detours(random), deepest);
    for (unsigned n : {255, 510}) measure(star(n), deepest);
    measure(deep(), deepest);
    measure(doubtful(504), deepest);
    measure(forks(100), deepest);
    std::printf("deepest stack met: run %zu, ask %zu, strip %zu bytes\n", deepest.run, deepest.ask, deepest.strip);
    CHECK(deepest.run < FENCE_RUN_STACK);
    CHECK(deepest.run > FENCE_RUN_STACK / 2);  // else the search never went deep, and the line above shows nothing
    CHECK(deepest.ask < FENCE_ASK_STACK);
    CHECK(deepest.strip < FENCE_STRIP_STACK);
}
