// Times run and ask on files of 60 nodes, or of 400 to 512, for a comparison of two builds: see against.py, which
// tells for which file.
//
//     against SEED ORDERS      numbers of files on standard input, a line for each on standard output
//
// ORDERS is how many a file of 60 nodes has; 0 stands for all numbers in turn, and "large" for the larger files.
#include <algorithm>
#include <chrono>
#include <cstdio>
#include <cstdlib>
#include <functional>
#include <iostream>
#include <string>

#include "corpus.hpp"
#include "fence.h"

namespace {

// The least of a few calls in nanoseconds: what else the machine does only adds to it. A long call is enough by
// itself.
double least_time(const std::function<void()> &call) {
    double least = 1e18;
    for (unsigned i = 0; i < 5 && (i == 0 || least < 1e8); ++i) {
        const auto start = std::chrono::steady_clock::now();
        call();
        const std::chrono::duration<double, std::nano> took = std::chrono::steady_clock::now() - start;
        least = std::min(least, took.count());
    }
    return least;
}

std::uint64_t checksum(const reference::Bytes &bytes) {
    std::uint64_t sum = 1469598103934665603u;
    for (std::uint8_t byte : bytes) sum = (sum ^ byte) * 1099511628211u;
    return sum;
}

// Family, run's answer, its cut's weight, a checksum of what it wrote, its time, and the time of ask for one order.
void measure(const corpus::Instance &instance) {
    const reference::Bytes file = reference::written(instance.request);
    const std::size_t orders = instance.request.orders.size();
    reference::Bytes out(FENCE_MAX_FILE);
    std::uint16_t route[FENCE_ROUTE_ENTRIES];
    fence_report report{};
    const double run =
        least_time([&] { report = fence_run(file.data(), file.size(), out.data(), FENCE_MAX_FILE); });
    const double ask = least_time([&] {
        for (std::size_t i = 0; i < orders; ++i) fence_ask(file.data(), file.size(), i, route, FENCE_ROUTE_ENTRIES);
    });
    std::printf("%s,%d,%llu,%llu,%.0f,%.0f\n", instance.family.c_str(), static_cast<int>(report.answer),
                static_cast<unsigned long long>(report.weight), static_cast<unsigned long long>(checksum(out)), run,
                ask / static_cast<double>(orders));
    std::fflush(stdout);
}

}  // namespace

int main(int arguments, char **argument) {
    if (arguments < 3) return 2;
    const std::uint64_t seed = std::strtoull(argument[1], nullptr, 10);
    const std::string orders = argument[2];
    const auto files = orders == "large" ? corpus::real(seed) : corpus::sixty_of_all(seed, std::stoul(orders));
    std::printf("%zu\n", files.size());
    std::fflush(stdout);
    for (std::size_t number; std::cin >> number;) measure(files.at(number));
    return 0;
}
