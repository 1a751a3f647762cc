// The request as lists: built, written, read back, where fences were placed, drawn.
#include <doctest/doctest.h>

#include <sstream>

#include "fence_request.hpp"
#include "generate.hpp"
#include "samples.hpp"

namespace {

using File = std::vector<std::uint8_t>;

// Graph D, by numbers and by names.
fence::Request d() {
    fence::Request r;
    r.rule(fence::store(1), fence::store(2)).rule(fence::load(1), fence::load(2));
    r.store(7), r.store(9), r.load(7), r.load(9);
    r.edge(0, 1, 3).edge(1, 2).edge(1, 3);
    return r.order(0, 2).order(0, 3).order(0, 1);
}

fence::Request named() {
    fence::Request r;
    r.store("x", "first"), r.load("y", "second"), r.store("x");
    return r.path({"first", "second", 2}, 5).order("first", "second", "x before y");
}

std::string drawn(const fence::Request &r) {
    std::ostringstream dot;
    fence::draw(dot, r);
    return dot.str();
}

bool has(const std::string &text, const std::string &part) { return text.find(part) != std::string::npos; }

}  // namespace

TEST_CASE("the builder's bytes are those of graph D") {
    CHECK(d().bytes() == samples::written(samples::graph_d()));
}

TEST_CASE("names stand for numbers, of nodes and of addresses") {
    const fence::Request r = named();
    CHECK(r.addresses == std::vector<std::string>{"x", "y"});
    CHECK(r.nodes[2].address == 0);
    CHECK(r.edges[1].from == 1);
    CHECK(r.edges[1].to == 2);
    CHECK(r.edges[1].weight == 5);
    CHECK(r.number("second") == 1);
    CHECK(r.name(0) == "first");
    CHECK(r.name(2) == "store x");
    CHECK(r.order_name(0) == "x before y");
    CHECK(d().name(2) == "load 7");
    CHECK(d().order_name(1) == "order 1");
}

TEST_CASE("what has no node or no room in its field is thrown at once") {
    fence::Request r = named();
    CHECK_THROWS_WITH(r.edge("first", "secnod"), "there is no node named 'secnod'");
    CHECK_THROWS_WITH(r.edge("first", ""), "there is no node named ''");
    CHECK_THROWS_WITH(r.store("x", "second"), "two nodes are named 'second'");
    CHECK_THROWS_WITH(r.order(0, 65536), "a node's number is at most 65535, not 65536");
    CHECK_THROWS_AS(r.order(0, -1), std::invalid_argument);
    CHECK_THROWS_WITH(r.edge(0, 1, 65536), "a weight is at most 65535, not 65536");
    CHECK_THROWS_WITH(r.store(3), "addresses are all numbers or all names");
    CHECK_THROWS_WITH(d().store("x"), "addresses are all numbers or all names");
    CHECK_THROWS_WITH(d().store(256), "an address is at most 255, not 256");
    CHECK(r.bytes() == named().bytes());
    for (int i = 2; i < 256; ++i) r.load(std::to_string(i));
    CHECK(r.nodes.back().address == 255);
    CHECK_THROWS_WITH(r.load("one more"), "an address is at most 255, not 256");
}

TEST_CASE("a file is read into the lists that it was written from") {
    generate::Random random(17);
    for (int i = 0; i < 500; ++i) {
        const File file = reference::written(generate::small(random));
        const auto lists = fence::Request::read(file);
        REQUIRE(lists);
        CHECK(lists->bytes() == file);
    }
}

TEST_CASE("reading is refused where the library says that a file can't be read, and nowhere else") {
    generate::Random random(18);
    std::size_t refused = 0;
    for (int i = 0; i < 5000; ++i) {
        const File file = i % 5 == 0 ? generate::soup(random) : generate::damaged(random, d().bytes());
        const auto lists = fence::Request::read(file);
        const auto asked = fence::ask(file, 0);
        CHECK(static_cast<bool>(lists) == (asked || asked.refusal().answer != 1));
        if (lists) continue;
        ++refused;
        CHECK(lists.refusal().answer == 1);
        CHECK(lists.refusal().place == asked.refusal().place);
    }
    CHECK(refused > 2000);
}

TEST_CASE("what run wrote keeps the names") {
    const fence::Request before = named();
    const auto after = fence::Request::read(fence::run(before.bytes()).value().file, before).value();
    CHECK(after.nodes.size() == 4);
    CHECK(after.name(0) == "first");
    CHECK(after.name(2) == "store x");
    CHECK(after.name(3) == "fence");
    CHECK(after.order_name(0) == "x before y");
}

TEST_CASE("fences are placed on the edges that they cut, after one run and after several") {
    fence::Request r = d();
    const auto orders = r.orders;
    r.orders = {orders[0]};
    const auto once = fence::Request::read(fence::run(r.bytes()).value().file).value();
    const auto first = fence::placed(r, once);
    REQUIRE(first.size() == 1);
    CHECK(first[0].fence == 4);
    CHECK(first[0].edge == 1);
    CHECK(first[0].from == 1);
    CHECK(first[0].to == 2);
    CHECK(first[0].weight == 1);
    fence::Request grown = once;
    grown.orders = orders;
    const auto both = fence::placed(r, fence::Request::read(fence::run(grown.bytes()).value().file).value());
    REQUIRE(both.size() == 2);
    CHECK(both[1].fence == 5);
    CHECK(both[1].edge == 2);
    CHECK(fence::placed(once, once).empty());
}

TEST_CASE("two fences on one edge are both placed there") {
    const fence::Request before = d();
    fence::Request after = before;
    after.full_fence(), after.full_fence();
    after.edges[1].to = 4;
    after.edge(4, 5).edge(5, 2);
    const auto all = fence::placed(before, after);
    REQUIRE(all.size() == 2);
    CHECK(all[0].edge == 1);
    CHECK(all[1].edge == 1);
    CHECK(all[1].fence == 5);
    CHECK(all[1].to == 2);
}

TEST_CASE("a picture has every node, edge and order, and the route of an open order in red") {
    const std::string dot = drawn(d());
    CHECK(has(dot, "  3 [label=\"3: load 9\"];"));
    CHECK(has(dot, "  0 -> 1 [label=\" 3\", penwidth=2.5, color=\"#c0392b\"];"));
    CHECK(has(dot,
              "  0 -> 2 [style=dashed, constraint=false, color=\"#c0392b\", fontcolor=\"#c0392b\", label=\" order "
              "0: open\"];"));
    CHECK(has(dot, "label=\" order 2: held\""));
    const auto after = fence::Request::read(fence::run(d().bytes()).value().file).value();
    CHECK(has(drawn(after), "  4 [label=\"4: fence\", style=filled"));
    CHECK_FALSE(has(drawn(after), "penwidth"));
    CHECK_FALSE(has(drawn(after), "open"));
}

TEST_CASE("a picture of what isn't accepted has its orders too, and quotes in names do no harm") {
    fence::Request r = d().order(0, 1);
    r.nodes[0].name = "say \"x\\y\"";
    const std::string dot = drawn(r);
    CHECK(has(dot, "  0 [label=\"0: say \\\"x\\\\y\\\"\"];"));
    CHECK(has(dot, "color=\"#777777\""));
    CHECK_FALSE(has(dot, "held"));
}
