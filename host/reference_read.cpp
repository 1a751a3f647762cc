// Reading a request: every refusal from 1 to 7 that applies is noted, then the lowest with its earliest place wins.
#include "reference.hpp"

#include <algorithm>
#include <string>

namespace reference {
namespace {

struct Record {
    std::string mark;
    std::vector<unsigned> fields;
};

struct Layout {
    const char *mark;
    std::vector<std::size_t> widths;
};

// The table of records, in the order in which they stand.
const std::vector<Layout> &layouts() {
    static const std::vector<Layout> table = {
        {"ND", {1, 1}}, {"ED", {2, 2, 2}}, {"RU", {1, 1, 1, 1}}, {"OR", {2, 2}}, {"EN", {}},
    };
    return table;
}

std::size_t bytes_of(const Layout &layout) {
    std::size_t bytes = 2;
    for (std::size_t width : layout.widths) bytes += width;
    return bytes;
}

// The table's row of the record that can be read at `at`, or the number of rows. Rows before `row` come too late.
std::size_t row_at(const Bytes &file, std::size_t at, std::size_t row) {
    for (; row < layouts().size(); ++row) {
        const Layout &layout = layouts()[row];
        if (at + bytes_of(layout) <= file.size() && file[at] == layout.mark[0] && file[at + 1] == layout.mark[1])
            break;
    }
    return row;
}

Record record_at(const Bytes &file, std::size_t at, const Layout &layout) {
    Record record{layout.mark, {}};
    at += 2;
    for (std::size_t width : layout.widths) {
        record.fields.push_back(width == 1 ? file[at] : file[at] + 256u * file[at + 1]);
        at += width;
    }
    return record;
}

// Splits the file into records. False, and the place of answer 1, where that can't be done.
bool split(const Bytes &file, std::vector<Record> &records, Number &place) {
    std::size_t at = 0, row = 0;
    bool ended = false;
    while (!ended) {
        place = at;
        row = row_at(file, at, row);
        if (row == layouts().size()) return false;
        records.push_back(record_at(file, at, layouts()[row]));
        at += bytes_of(layouts()[row]);
        ended = records.back().mark == "EN";
    }
    place = at;
    return at == file.size();
}

bool bad_node(const Node &node) { return node.kind > full_fence || (node.kind == full_fence && node.address != 0); }

bool bad_edge(const Request &so_far, const Edge &edge) {
    const bool repeated = std::any_of(so_far.edges.begin(), so_far.edges.end(), [&](const Edge &other) {
        return other.from == edge.from && other.to == edge.to;
    });
    return edge.from >= so_far.nodes.size() || edge.to >= so_far.nodes.size() || edge.weight == 0 || repeated;
}

bool has_variable(unsigned kind) { return kind == store || kind == load; }

// The first variable used is 1; a right side has 2 only if the left side has 1.
bool bad_rule(const Rule &rule) {
    if (rule.left_kind > wildcard || rule.right_kind > wildcard) return true;
    if (rule.left_variable != (has_variable(rule.left_kind) ? 1u : 0u)) return true;
    if (!has_variable(rule.right_kind)) return rule.right_variable != 0;
    if (rule.right_variable == 2) return rule.left_variable != 1;
    return rule.right_variable != 1;
}

bool bad_order(const Request &so_far, const Order &order) {
    const bool repeated = std::any_of(so_far.orders.begin(), so_far.orders.end(), [&](const Order &other) {
        return other.first == order.first && other.second == order.second;
    });
    return order.first >= so_far.nodes.size() || order.second >= so_far.nodes.size() ||
           order.first == order.second || repeated;
}

// Adds one record to the request and notes what is wrong with it.
void take(const Record &record, Number place, Request &request, std::vector<Refusal> &wrong) {
    const std::vector<unsigned> &f = record.fields;
    if (record.mark == "ND") {
        if (bad_node({f[0], f[1]})) wrong.push_back({3, place});
        request.nodes.push_back({f[0], f[1]});
        if (request.nodes.size() > most_nodes) wrong.push_back({2, place});
    } else if (record.mark == "ED") {
        if (bad_edge(request, {f[0], f[1], f[2]})) wrong.push_back({4, place});
        request.edges.push_back({f[0], f[1], f[2]});
        if (request.edges.size() > most_edges) wrong.push_back({2, place});
    } else if (record.mark == "RU") {
        if (bad_rule({f[0], f[1], f[2], f[3]})) wrong.push_back({5, place});
        request.rules.push_back({f[0], f[1], f[2], f[3]});
        if (request.rules.size() > most_rules) wrong.push_back({2, place});
    } else if (record.mark == "OR") {
        if (bad_order(request, {f[0], f[1]})) wrong.push_back({6, place});
        request.orders.push_back({f[0], f[1]});
        if (request.orders.size() > most_orders) wrong.push_back({2, place});
    }
}

bool has_rule(const Request &request, unsigned left, unsigned right) {
    return std::any_of(request.rules.begin(), request.rules.end(),
                       [&](const Rule &rule) { return rule.left_kind == left && rule.right_kind == right; });
}

void put(Bytes &out, const std::string &mark) { out.insert(out.end(), mark.begin(), mark.end()); }

void put(Bytes &out, unsigned number, std::size_t width) {
    for (std::size_t i = 0; i < width; ++i, number /= 256) out.push_back(static_cast<std::uint8_t>(number % 256));
}

}  // namespace

Reading read(const Bytes &file) {
    Reading reading{{0, 0}, {}};
    std::vector<Record> records;
    Number place = 0;
    if (!split(file, records, place)) return {{1, place}, {}};
    std::vector<Refusal> wrong;
    for (std::size_t i = 0; i < records.size(); ++i) take(records[i], i, reading.request, wrong);
    if (!has_rule(reading.request, wildcard, full_fence) || !has_rule(reading.request, full_fence, wildcard))
        wrong.push_back({7, 0});
    const auto earlier = [](const Refusal &a, const Refusal &b) {
        return a.answer != b.answer ? a.answer < b.answer : a.place < b.place;
    };
    if (!wrong.empty()) reading.refusal = *std::min_element(wrong.begin(), wrong.end(), earlier);
    return reading;
}

Bytes written(const Request &request) {
    Bytes out;
    for (const Node &n : request.nodes) put(out, "ND"), put(out, n.kind, 1), put(out, n.address, 1);
    for (const Edge &e : request.edges)
        put(out, "ED"), put(out, e.from, 2), put(out, e.to, 2), put(out, e.weight, 2);
    for (const Rule &r : request.rules)
        put(out, "RU"), put(out, r.left_kind, 1), put(out, r.left_variable, 1), put(out, r.right_kind, 1),
            put(out, r.right_variable, 1);
    for (const Order &o : request.orders) put(out, "OR"), put(out, o.first, 2), put(out, o.second, 2);
    put(out, "EN");
    return out;
}

}  // namespace reference
