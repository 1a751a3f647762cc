// Spoiled files: see generate.hpp.
#include <algorithm>
#include <string>

#include "generate.hpp"

namespace generate {
namespace {

const std::string marks[] = {"ND", "ED", "RU", "OR", "EN"};
const std::size_t sizes[] = {4, 8, 6, 6, 2};

using Records = std::vector<Bytes>;

Bytes joined(const Records &records) {
    Bytes file;
    for (const Bytes &record : records) file.insert(file.end(), record.begin(), record.end());
    return file;
}

// The records of a file, as far as its marks can be read; what is left is the last.
Records split(const Bytes &file) {
    Records records;
    std::size_t at = 0;
    while (at < file.size()) {
        std::size_t size = file.size() - at;
        for (std::size_t k = 0; k < 5 && size > 1; ++k)
            if (std::equal(marks[k].begin(), marks[k].end(), file.begin() + at)) size = std::min(size, sizes[k]);
        records.emplace_back(file.begin() + at, file.begin() + at + size);
        at += size;
    }
    return records;
}

Bytes any_record(Random &random) {
    const unsigned kind = random.below(5);
    Bytes record(marks[kind].begin(), marks[kind].end());
    while (record.size() < sizes[kind]) record.push_back(random.chance(70) ? random.below(4) : random.below(256));
    return record;
}

void spoil_records(Random &random, Records &records) {
    const std::size_t at = random.below(records.size()), to = random.below(records.size());
    Bytes &record = records[at];
    switch (random.below(5)) {
        case 0: std::swap(records[at], records[to]); break;
        case 1: records.insert(records.begin() + to, Bytes(record)); break;
        case 2: records.erase(records.begin() + at); break;
        case 3: records.insert(records.begin() + to, any_record(random)); break;
        default:  // a field, so that the marks stay
            if (record.size() > 2) {
                const unsigned field = random.between(2, static_cast<unsigned>(record.size()) - 1);
                record[field] = random.below(random.chance(50) ? 5 : 256);
            }
    }
}

void spoil_bytes(Random &random, Bytes &file) {
    switch (random.below(4)) {
        case 0: file.resize(random.below(file.size())); break;
        case 1: file[random.below(file.size())] ^= 1 << random.below(8); break;
        case 2: {
            const std::size_t at = random.below(file.size() + 1);
            file.insert(file.begin() + at, random.below(256));
            break;
        }
        default: file.push_back("NDERUO"[random.below(6)]);
    }
}

}  // namespace

Bytes damaged(Random &random, Bytes file) {
    for (unsigned faults = random.between(1, 3); faults > 0 && !file.empty(); --faults) {
        if (random.chance(30)) {
            spoil_bytes(random, file);
        } else {
            Records records = split(file);
            spoil_records(random, records);
            file = joined(records);
        }
    }
    return file;
}

Bytes soup(Random &random) {
    Records records;
    for (unsigned i = random.below(12); i > 0; --i) records.push_back(any_record(random));
    if (random.chance(50)) {  // in the order of the marks, so that answers beyond 1 are met too
        const auto rank = [](const Bytes &record) {
            return std::find(marks, marks + 5, std::string(record.begin(), record.begin() + 2));
        };
        const auto earlier = [&](const Bytes &a, const Bytes &b) { return rank(a) < rank(b); };
        std::stable_sort(records.begin(), records.end(), earlier);
    }
    Bytes file = joined(records);
    if (random.chance(50)) file.insert(file.end(), {'E', 'N'});
    return file;
}

}  // namespace generate
