// Refusals in sentences that name record, field and value: of each stored file, and of many damaged ones.
#include <doctest/doctest.h>

#include <algorithm>
#include <filesystem>
#include <fstream>
#include <iterator>
#include <sstream>

#include "fence_request.hpp"
#include "generate.hpp"
#include "samples.hpp"

namespace {

namespace files = std::filesystem;
using File = std::vector<std::uint8_t>;

std::string contents(const files::path &path) {
    std::ifstream in(path, std::ios::binary);
    return {std::istreambuf_iterator<char>(in), {}};
}

// What a refused call is explained by: "run", "ask ORDER" or "strip COUNT". Empty where the call is accepted.
std::string said(const File &file, const std::string &call) {
    std::istringstream words(call);
    std::string operation;
    std::uint64_t number = 0;
    words >> operation >> number;
    const auto sentence = [&](const auto &result, auto... asked) {
        return result ? std::string() : fence::explain(result.refusal(), file, asked...);
    };
    if (operation == "run") return sentence(fence::run(file));
    return operation == "ask" ? sentence(fence::ask(file, number), number)
                              : sentence(fence::strip(file, number), number);
}

}  // namespace

TEST_CASE("each damaged file that is kept gets the sentence beside it") {
    std::size_t found = 0;
    for (const auto &entry : files::directory_iterator(FENCE_DAMAGED)) {
        if (entry.path().extension() != ".request") continue;
        CAPTURE(entry.path().filename().string());
        const std::string bytes = contents(entry.path());
        std::istringstream lines(contents(files::path(entry.path()).replace_extension(".said")));
        std::string call, sentence;
        std::getline(lines, call);
        std::getline(lines, sentence);
        CHECK(said({bytes.begin(), bytes.end()}, call) == sentence);
        ++found;
    }
    CHECK(found >= 20);
}

TEST_CASE("no refusal of a damaged file is left to its general sentence") {
    generate::Random random(19);
    const File d = samples::written(samples::graph_d());
    std::size_t refused = 0;
    for (int i = 0; i < 6000; ++i) {
        const File file = i % 3 == 0   ? generate::damaged(random, d)
                          : i % 3 == 1 ? generate::soup(random)
                                       : reference::written(generate::spoiled(random, generate::small(random)));
        const auto done = fence::run(file);
        if (done) continue;
        ++refused;
        CHECK(fence::explain(done.refusal(), file) != done.refusal().sentence());
    }
    CHECK(refused > 3000);
}

TEST_CASE("no refusal of strip is left to its general sentence") {
    generate::Random random(20);
    std::size_t refused = 0;
    for (int i = 0; i < 3000; ++i) {
        const auto fenced = fence::run(reference::written(generate::small(random)));
        if (!fenced) continue;
        const File file = reference::written(generate::unfit(random, reference::read(fenced->file).request));
        const std::uint64_t count = random.below(10);
        const auto back = fence::strip(file, count);
        if (back) continue;
        ++refused;
        CHECK(fence::explain(back.refusal(), file, count) != back.refusal().sentence());
    }
    CHECK(refused > 1000);
}

TEST_CASE("at the limits each of 2 and 9 names its numbers, rerun's 9 those of the graph without fences") {
    generate::Random random(21);
    std::size_t refused = 0;
    for (int i = 0; i < 60; ++i) {
        const File file = reference::written(generate::at_limits(random));
        const auto done = fence::run(file);
        if (done) continue;
        ++refused;
        CHECK(fence::explain(done.refusal(), file) != done.refusal().sentence());
    }
    CHECK(refused > 10);
    const File file = samples::written(samples::line(512));
    CHECK(
        fence::explain({9, 0}, file, 512) ==
        "512 nodes of at most 512 and 511 edges of at most 1024 leave room for 0 fences, and the orders need more");
    CHECK(
        fence::explain({9, 0}, file, 511) ==
        "511 nodes of at most 512 and 510 edges of at most 1024 leave room for 1 fence, and the orders need more");
}

TEST_CASE("a refusal of another file is explained by its own sentence at least") {
    const std::vector<File> all = {{}, {'E', 'N'}, samples::written(samples::graph_d())};
    const std::uint64_t far = ~std::uint64_t{0};
    for (const File &file : all)
        for (std::uint64_t answer = 0; answer <= 12; ++answer)
            for (std::uint64_t place :
                 {std::uint64_t{0}, std::uint64_t{2}, std::uint64_t{13}, std::uint64_t{84}, far})
                for (std::uint64_t asked : {std::uint64_t{0}, std::uint64_t{4}, far}) {
                    CHECK_FALSE(fence::explain({answer, place}, file, asked).empty());
                    CHECK_FALSE(fence::explain({answer, place}, file).empty());
                }
}
