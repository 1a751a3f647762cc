// Compares library and reference on generated files, group by group, and says how many groups passed.
//
//     compare                the gate's measure: every tiny file, and 26,000 from two fixed seeds and a fresh one
//     compare FACTOR         so many times as many files from seeds
//     compare FACTOR SEED    the same, with this seed alone
//     compare FACTOR SEED first    likewise, up to the first difference
#include <algorithm>
#include <chrono>
#include <cstdio>
#include <cstdlib>
#include <cstring>

#include "groups.hpp"

namespace {

struct Count {
    unsigned passed = 0, failed = 0;
    void add(bool good) { ++(good ? passed : failed); }
};

void finish(const std::string &name, unsigned files, const Comparison &comparison, Count &count) {
    std::printf("compare %-14s %6u files, %7zu calls, %zu differences\n", name.c_str(), files, comparison.calls(),
                comparison.differences());
    std::fflush(stdout);
    count.add(comparison.differences() == 0);
}

// Until the first difference, if only that is asked for.
void compare_groups(std::uint64_t seed, unsigned factor, bool first, Count &count) {
    std::printf("seed %llu\n", static_cast<unsigned long long>(seed));
    for (const Group &group : groups()) {
        generate::Random random(seed);
        Comparison comparison;
        unsigned files = 0;
        while (files < group.files * factor && !(first && comparison.differences() > 0)) {
            group.compare(comparison, random);
            ++files;
        }
        finish(group.name, files, comparison, count);
        if (first && count.failed > 0) return;
    }
}

// A group of its own: what is never reached is never compared.
bool every_answer_reached() {
    const std::vector<unsigned> possible[] = {
        {0, 1, 2, 3, 4, 5, 6, 7, 9, 11}, {0, 1, 2, 3, 4, 5, 6, 7, 8, 11}, {0, 1, 2, 3, 4, 5, 6, 7, 10, 11}};
    const char *names[] = {"run", "ask", "strip"};
    bool all = true;
    for (unsigned operation = 0; operation < 3; ++operation) {
        std::printf("reached by %-5s", names[operation]);
        for (unsigned answer : possible[operation]) {
            const std::size_t times = Comparison::reached(Comparison::Operation(operation), answer);
            std::printf("  %u: %zu", answer, times);
            all = all && times > 0;
        }
        std::printf("\n");
    }
    return all;
}

}  // namespace

int main(int arguments, char **argument) {
    const unsigned factor = arguments > 1 ? std::max(1, std::atoi(argument[1])) : 1;
    std::vector<std::uint64_t> seeds{1, 2};
    if (arguments > 2)
        seeds = {std::strtoull(argument[2], nullptr, 10)};
    else
        seeds.push_back(static_cast<std::uint64_t>(std::chrono::system_clock::now().time_since_epoch().count()));
    const bool first = arguments > 3 && std::strcmp(argument[3], "first") == 0;
    Count count;
    Comparison tiny;
    finish("tiny", compare_tiny(tiny), tiny, count);
    for (std::uint64_t seed : seeds)
        if (!first || count.failed == 0) compare_groups(seed, factor, first, count);
    count.add(every_answer_reached());
    std::printf("%u groups passed, %u failed\n", count.passed, count.failed);
    return count.failed == 0 ? 0 : 1;
}
