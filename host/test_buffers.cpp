// Lent buffers of every interesting length. library.cpp checks the guard entries and all that must keep its value.
#include <doctest/doctest.h>

#include <atomic>
#include <cstring>
#include <thread>

#include "fence.h"
#include "lent.hpp"
#include "programs.hpp"
#include "samples.hpp"

using namespace samples;

namespace {

const Bytes d = written(graph_d());
const Bytes fenced = reference::run(d, ample).out;

}  // namespace

TEST_CASE("run and strip with every length from none to more than enough") {
    for (std::size_t room = 0; room <= fenced.size() + 20; ++room) {
        const Report ran = library::run(d, room), stripped = library::strip(fenced, 4, room);
        CHECK(ran.answer == (room < 108 ? 11 : 0));
        CHECK(ran.out == reference::run(d, room).out);
        CHECK(stripped.answer == (room < 84 ? 11 : 0));
        CHECK(stripped.out == reference::strip(fenced, 4, room).out);
    }
}

TEST_CASE("ask with every length from none to more than enough") {
    for (std::size_t room = 0; room <= 520; ++room) {
        CHECK(library::ask(d, 0, room).route == reference::ask(d, 0, room).route);
        CHECK(library::ask(d, 0, room).answer == (room < 512 ? 11 : 0));
    }
}

TEST_CASE("exact buffers that end where memory ends") {
    Brink in, out;
    const std::uint8_t *file = in.copy(d);
    CHECK(fence_run(file, d.size(), out.last(108), 108).length == 108);
    CHECK(Bytes(out.last(108), out.last(0)) == fenced);
    const std::uint8_t *longer = in.copy(fenced);
    CHECK(fence_strip(longer, fenced.size(), 4, out.last(84), 84).length == 84);
    CHECK(Bytes(out.last(84), out.last(0)) == d);
    const fence_route asked =
        fence_ask(longer, fenced.size(), 0, reinterpret_cast<std::uint16_t *>(out.last(1024)), 512);
    CHECK(asked.answer == 0);
    CHECK(asked.length == 0);
}

TEST_CASE("files that end where memory ends, cut off at every byte") {
    Brink in;
    for (std::size_t size = 0; size < d.size(); ++size) {
        const std::uint8_t *file = in.copy({d.begin(), d.begin() + size});
        CHECK(fence_run(file, size, nullptr, 0).answer == 1);
        CHECK(fence_ask(file, size, 0, nullptr, 0).answer == 1);
        CHECK(fence_strip(file, size, 0, nullptr, 0).answer == 1);
    }
}

TEST_CASE("null pointers with length 0") {
    CHECK(fence_run(nullptr, 0, nullptr, 0).answer == 1);
    CHECK(fence_ask(nullptr, 0, 0, nullptr, 0).answer == 1);
    CHECK(fence_strip(nullptr, 0, 0, nullptr, 0).answer == 1);
    CHECK(fence_run(d.data(), d.size(), nullptr, 0).answer == 11);
    CHECK(fence_ask(d.data(), d.size(), 0, nullptr, 0).answer == 11);
    CHECK(fence_strip(d.data(), d.size(), 4, nullptr, 0).answer == 11);
}

TEST_CASE("buffers at odd addresses") {
    Bytes memory(512, 0);
    for (std::size_t shift = 0; shift < 9; ++shift) {
        std::memcpy(memory.data() + shift, d.data(), d.size());
        std::uint8_t *out = memory.data() + 256 + shift;
        CHECK(fence_run(memory.data() + shift, d.size(), out, 108).length == 108);
        CHECK(Bytes(out, out + 108) == fenced);
    }
}

TEST_CASE("calls leave nothing behind: the same call gives the same, whatever came between") {
    const Report first = library::run(d, ample);
    library::run(written(line(511)), ample);
    library::ask(d, 1, most_nodes);
    library::strip(fenced, 2, ample);
    library::run(Bytes(12000, 'N'), ample);
    const Report again = library::run(d, ample);
    CHECK(again.out == first.out);
    CHECK(again.weight == first.weight);
}

TEST_CASE("calls from several threads at once") {
    std::atomic<unsigned> wrong{0};
    const auto work = [&wrong] {
        for (unsigned i = 0; i < 200; ++i) {
            std::uint8_t out[FENCE_MAX_FILE];
            const fence_report report = fence_run(d.data(), d.size(), out, sizeof out);
            if (Bytes(out, out + report.length) != fenced) ++wrong;
        }
    };
    std::vector<std::thread> threads;
    for (unsigned i = 0; i < 4; ++i) threads.emplace_back(work);
    for (std::thread &thread : threads) thread.join();
    CHECK(wrong == 0);
}
