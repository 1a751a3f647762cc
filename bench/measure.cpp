// Times ask and run of the library, and run of the plain version, on the corpus, a line for each instance; and
// writes the instances' files for the solvers.
//
//     measure SEED FOLDER LIMIT
//
// Results go to standard output, each instance to FOLDER/N.request. A run of the library is stopped after LIMIT
// seconds.
#include <sys/wait.h>
#include <unistd.h>

#include <algorithm>
#include <chrono>
#include <csignal>
#include <cstdio>
#include <cstdlib>
#include <fstream>
#include <functional>
#include <stdexcept>

#include "corpus.hpp"
#include "fence.h"
#include "plain.hpp"

namespace {

using Call = std::function<void()>;
using reference::Bytes;

// Whether a call ends in so many seconds: tried in a process of its own, since an exact search may take very long.
bool ends(const Call &call, unsigned limit) {
    const pid_t child = fork();
    if (child == 0) {
        alarm(limit);
        call();
        _exit(0);
    }
    int status = 0;
    if (child < 0 || waitpid(child, &status, 0) != child) throw std::runtime_error("no process for a call");
    if (WIFEXITED(status)) return true;
    if (WTERMSIG(status) != SIGALRM) throw std::runtime_error("a call of the library ended its process");
    return false;
}

// The median of several calls in nanoseconds: more calls where they are short, but not more than `most`.
double median_time(const Call &call, std::size_t most) {
    std::vector<double> times;
    double total = 0;
    while (times.size() < 3 || (total < 1e7 && times.size() < most)) {
        const auto start = std::chrono::steady_clock::now();
        call();
        const std::chrono::duration<double, std::nano> took = std::chrono::steady_clock::now() - start;
        times.push_back(took.count());
        total += took.count();
        if (total > 2e9) break;
    }
    std::sort(times.begin(), times.end());
    return times[times.size() / 2];
}

struct Done {
    fence_report report;
    Bytes out;
    double time;
};

template <class Run>
Done done(Run run, const Bytes &file) {
    Done d{{}, Bytes(FENCE_MAX_FILE), 0};
    d.time = median_time([&] { d.report = run(file.data(), file.size(), d.out.data(), d.out.size()); }, 31);
    return d;
}

bool same(const Done &a, const Done &b) {
    return a.report.answer == b.report.answer && a.report.fences == b.report.fences &&
           a.report.weight == b.report.weight && a.report.length == b.report.length && a.out == b.out;
}

bool is_open(const Bytes &file, std::size_t order) {
    std::uint16_t route[FENCE_ROUTE_ENTRIES];
    return fence_ask(file.data(), file.size(), order, route, FENCE_ROUTE_ENTRIES).length > 0;
}

// What ask says of the orders, as flags, and its times in rising order.
struct Asked {
    std::uint32_t open = 0;
    std::vector<double> times;
};

Asked ask_all(const Bytes &file, std::size_t orders) {
    Asked asked;
    for (std::size_t i = 0; i < orders; ++i) {
        bool open = false;
        asked.times.push_back(median_time([&] { open = is_open(file, i); }, 3));
        asked.open |= std::uint32_t{open} << i;
    }
    std::sort(asked.times.begin(), asked.times.end());
    return asked;
}

void print_start(const char *set, std::size_t number, const corpus::Instance &instance) {
    const reference::Request &r = instance.request;
    std::printf("%zu,%s,%s,%s,%zu,%zu,%zu,", number, set, instance.family.c_str(), instance.weights.c_str(),
                r.nodes.size(), r.edges.size(), r.orders.size());
}

void save(const Bytes &file, const std::string &path) {
    std::ofstream out(path, std::ios::binary);
    out.write(reinterpret_cast<const char *>(file.data()), static_cast<std::streamsize>(file.size()));
    if (!out.flush()) throw std::runtime_error("a request could not be written");
}

// Measures one instance, prints its line, and writes its file. False where library and plain version differ.
bool measure(const corpus::Instance &instance, const std::string &path, unsigned limit) {
    const Bytes file = reference::written(instance.request);
    Bytes out(FENCE_MAX_FILE);
    const Asked asked = ask_all(file, instance.request.orders.size());
    plain::Graph graph;
    if (plain::read(file.data(), file.size(), graph).answer != 0) return false;
    const plain::Fits fits = plain::fits_of(graph);
    if (plain::open_orders(graph, fits) != asked.open) return false;
    save(file, path);
    std::printf("%d,%.0f,%.0f,", __builtin_popcount(asked.open), asked.times[asked.times.size() / 2],
                asked.times.back());
    if (!ends([&] { fence_run(file.data(), file.size(), out.data(), out.size()); }, limit)) {
        std::printf("1,,,%.0f,\n", limit * 1e9);
        return true;
    }
    const Done ours = done(fence_run, file), theirs = done(plain::run, file);
    if (!same(ours, theirs)) return false;
    std::printf("0,%d,%llu,%.0f,%.0f\n", static_cast<int>(ours.report.answer),
                static_cast<unsigned long long>(plain::chosen(graph, fits, asked.open).weight), ours.time,
                theirs.time);
    return true;
}

}  // namespace

int main(int arguments, char **argument) {
    if (arguments < 4) return 2;
    const std::uint64_t seed = std::strtoull(argument[1], nullptr, 10);
    const std::string folder = argument[2];
    const unsigned limit = static_cast<unsigned>(std::strtoul(argument[3], nullptr, 10));
    const std::pair<const char *, std::vector<corpus::Instance>> sets[] = {
        {"corpus", corpus::instances(seed)}, {"sixty", corpus::sixty(seed)}, {"real", corpus::real(seed)}};
    std::printf(
        "number,set,family,weights,nodes,edges,orders,open,ask median ns,ask worst ns,"
        "library stopped,answer,weight,library ns,plain ns\n");
    std::size_t number = 0;
    for (const auto &[name, instances] : sets) {
        for (const corpus::Instance &instance : instances) {
            print_start(name, number, instance);
            if (!measure(instance, folder + "/" + std::to_string(number) + ".request", limit)) {
                std::fprintf(stderr, "instance %zu: library and plain version differ\n", number);
                return 1;
            }
            std::fflush(stdout);
            ++number;
        }
    }
    return 0;
}
