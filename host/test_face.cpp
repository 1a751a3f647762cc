// The C++ face: values, refusals and their sentences.
#include <doctest/doctest.h>

#include <array>
#include <set>
#include <string>
#include <type_traits>

#include "fence.hpp"
#include "samples.hpp"

using namespace samples;

namespace {

const Bytes d = written(graph_d());

}  // namespace

TEST_CASE("run gives the file, or a refusal in words") {
    const auto done = fence::run(d);
    REQUIRE(done);
    CHECK(done->fences == 2);
    CHECK(done->weight == 2);
    CHECK((*done).file.size() == 108);
    const auto refused = fence::run(Bytes{'E', 'N'});
    REQUIRE_FALSE(refused);
    CHECK(refused.refusal().answer == 7);
    CHECK(refused.refusal().place == 0);
    CHECK(std::string(refused.refusal().sentence()) == "The rules lack wildcard to fence, or fence to wildcard.");
}

TEST_CASE("ask gives a route, or that the order is held") {
    const auto open = fence::ask(d, 0);
    REQUIRE(open);
    CHECK_FALSE(open->held());
    CHECK(open->route == std::vector<std::uint16_t>{0, 1, 2});
    CHECK(fence::ask(d, 2)->held());
    CHECK(fence::ask(d, 3).refusal().answer == 8);
}

TEST_CASE("strip undoes run") {
    const auto back = fence::strip(fence::run(d)->file, 4);
    REQUIRE(back);
    CHECK(back->file == d);
    CHECK(back->fences == 2);
    CHECK(fence::strip(d, 3).refusal().answer == 10);
}

TEST_CASE("pointer and size, empty vectors, no vector at all") {
    CHECK(fence::run({d.data(), d.size()}));
    CHECK(fence::run(Bytes{}).refusal().answer == 1);
    CHECK(fence::ask({nullptr, 0}, 0).refusal().answer == 1);
    CHECK(fence::strip({d.data(), 0}, 0).refusal().answer == 1);
    CHECK(fence::Bytes(nullptr, 0).data() != nullptr);
}

TEST_CASE("arrays and whatever has data and size are files too, an array of C isn't") {
    struct Span {  // as std::span, which C++17 doesn't have
        const std::uint8_t *start;
        std::size_t length;
        const std::uint8_t *data() const { return start; }
        std::size_t size() const { return length; }
    };
    std::array<std::uint8_t, 84> array;
    std::copy(d.begin(), d.end(), array.begin());
    CHECK(fence::run(array)->fences == 2);
    CHECK(fence::ask(Span{d.data(), d.size()}, 0)->route.size() == 3);
    CHECK_FALSE(std::is_convertible_v<std::uint8_t[84], fence::Bytes>);
    CHECK_FALSE(std::is_convertible_v<std::vector<std::uint16_t>, fence::Bytes>);
}

TEST_CASE("value gives the value, or throws the refusal") {
    const auto done = fence::run(d);
    CHECK(done.value().file.size() == 108);
    CHECK(fence::run(d).value().fences == 2);
    const auto refused = fence::ask(d, 3);
    CHECK_THROWS_WITH(refused.value(), "answer 8, place 0: There is no order of this number.");
    try {
        fence::run(Bytes{'N', 'D'}).value();
        FAIL("a refusal has no value");
    } catch (const fence::Refused &thrown) {
        CHECK(thrown.refusal().answer == 1);
    }
}

TEST_CASE("rerun takes off what an order brought that has gone, run keeps it") {
    Request r = graph_d();
    r.orders = {{0, 2}};
    Request fenced = read(fence::run(written(r)).value().file).request;
    CHECK(fenced.nodes.size() == 5);
    fenced.orders = {{0, 3}, {0, 1}};
    const Bytes today = written(fenced);
    r.orders = fenced.orders;
    CHECK(fence::run(today)->file.size() == today.size() + 12);
    CHECK(fence::rerun(today, 4)->file == fence::run(written(r))->file);
    CHECK(fence::rerun(today, 4)->fences == 1);
    CHECK(fence::rerun(today, 3).refusal().answer == 10);
    CHECK(fence::rerun(Bytes{}, 0).refusal().answer == 1);
    CHECK(fence::rerun(written(line(512)), 512).refusal().answer == 9);
}

TEST_CASE("the version's text has its numbers") {
    CHECK(std::string(FENCE_VERSION) == std::to_string(FENCE_VERSION_MAJOR) + "." +
                                            std::to_string(FENCE_VERSION_MINOR) + "." +
                                            std::to_string(FENCE_VERSION_PATCH));
}

TEST_CASE("no buffer of the face is ever too short") {
    CHECK(fence::run(written(line(511))));
    CHECK(fence::ask(written(line(512)), 0)->route.size() == 512);
}

TEST_CASE("each answer has a sentence of its own") {
    std::set<std::string> sentences;
    for (std::uint64_t answer = 0; answer <= 12; ++answer) sentences.insert(fence::Refusal{answer, 0}.sentence());
    CHECK(sentences.size() == 13);
    CHECK(std::string(fence_sentence(11)) == "The lent buffer is too short.");
}
