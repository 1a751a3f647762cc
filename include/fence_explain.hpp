// fence_explain.hpp: a refusal in one sentence that names the record, the field and the value. A part of
// fence_request.hpp, which includes it.
#ifndef FENCE_EXPLAIN_HPP
#define FENCE_EXPLAIN_HPP

#include "fence_request.hpp"

#if __cplusplus >= 201703L

namespace fence {

namespace detail {

// What an explanation goes by. `asked` is ask's order, or the count of strip and rerun.
struct Case {
    Refusal why;
    Bytes file;
    Reading read;
    std::optional<std::uint64_t> asked;

    const Request &request() const { return read.request; }
};

inline std::size_t count_of(const Request &r, Record record) {
    switch (record) {
        case Record::node: return r.nodes.size();
        case Record::edge: return r.edges.size();
        case Record::rule: return r.rules.size();
        case Record::order: return r.orders.size();
        default: return 1;
    }
}

// The number, over the whole file, that the first record of a sort has.
inline std::size_t start_of(const Request &r, Record record) {
    std::size_t start = 0;
    for (Record before : {Record::node, Record::edge, Record::rule, Record::order})
        if (before < record) start += count_of(r, before);
    return start;
}

// The refused record's number in its list, if the list has it.
inline std::optional<std::size_t> refused_in(const Case &c, Record record) {
    const std::size_t start = start_of(c.request(), record);
    if (c.why.place < start || c.why.place - start >= count_of(c.request(), record)) return std::nullopt;
    return static_cast<std::size_t>(c.why.place) - start;
}

inline std::string side_word(Side side) {
    if (!row_of(side.kind)) return kind_word(side.kind) + " variable " + words(side.variable);
    return kind_word(side.kind) + (side.variable != 0 ? " " + words(side.variable) : "");
}

inline std::string fields_of(const Node &n) { return "kind " + words(n.kind) + ", address " + words(n.address); }
inline std::string fields_of(const Edge &e) {
    return "from " + words(e.from) + " to " + words(e.to) + ", weight " + words(e.weight);
}
inline std::string fields_of(const Rule &r) { return side_word(r.left) + " to " + side_word(r.right); }
inline std::string fields_of(const Order &o) { return words(o.first) + " before " + words(o.second); }

// A record by its number in the file, its number in its list and its fields; then what is wrong with it.
inline std::string said(const Request &r, Record record, std::size_t i, const std::string &fields,
                        const std::string &cause) {
    return "record " + words(start_of(r, record) + i) + " (" + row_of(record).word + " " + words(i) + ", " +
           fields + "): " + cause;
}

inline std::string said_node(const Request &r, std::size_t i, const std::string &cause) {
    return said(r, Record::node, i, fields_of(r.nodes[i]), cause);
}

inline std::string said_edge(const Request &r, std::size_t i, const std::string &cause) {
    return said(r, Record::edge, i, fields_of(r.edges[i]), cause);
}

inline std::string said_order(const Request &r, std::size_t i, const std::string &cause) {
    return said(r, Record::order, i, fields_of(r.orders[i]), cause);
}

inline std::string no_node(const Request &r, std::uint16_t node) {
    return "there is no node " + words(node) + ", there are " + words(r.nodes.size());
}

inline std::string shown(std::uint8_t byte) {
    static const char digits[] = "0123456789abcdef";
    if (byte > 32 && byte < 127) return {'\'', static_cast<char>(byte), '\''};
    return {'0', 'x', digits[byte >> 4], digits[byte & 15]};
}

// A list in words, with this before the last of them.
inline std::string joined(const std::vector<std::string> &all, const std::string &before_last) {
    std::string list = all[0];
    for (std::size_t i = 1; i < all.size(); ++i) list += (i + 1 < all.size() ? ", " : before_last) + all[i];
    return list;
}

inline std::string all_marks(const std::string &before_last) {
    std::vector<std::string> all;
    for (const RecordRow &row : records) all.push_back(row.mark);
    return joined(all, before_last);
}

// Why no record can be read at `at`, where one byte at least is left.
inline std::string no_record(Bytes file, std::size_t at) {
    const std::size_t left = file.size() - at;
    const std::uint8_t *found = file.data() + at;
    if (left == 1) return "one byte is left, " + shown(found[0]) + ", where a mark of two should stand";
    for (const RecordRow &row : records) {
        if (found[0] != row.mark[0] || found[1] != row.mark[1]) continue;
        if (left < row.size)
            return std::string(row.mark) + " is cut short: it has " + words(row.size) + " bytes, and " +
                   words(left) + " are left";
        return std::string(row.mark) + " stands too late: the marks come as " + all_marks(", ");
    }
    return shown(found[0]) + " " + shown(found[1]) + " is no mark: " + all_marks(" and ") + " are";
}

inline std::string unreadable(const Case &c) {
    if (c.why.place > c.file.size()) return "";
    const auto at = static_cast<std::size_t>(c.why.place);
    const std::string here = "byte " + words(at) + " of " + words(c.file.size()) + ", record " +
                             words(start_of(c.request(), Record::end) + c.read.ended) + ": ";
    if (at == c.file.size()) return here + "the file ends without EN";
    if (c.read.ended) return here + shown(c.file.data()[at]) + " stands after EN, which ends a file";
    return here + no_record(c.file, at);
}

inline std::string too_many(const Case &c) {
    for (Record record : {Record::node, Record::edge, Record::rule, Record::order}) {
        const std::string word = row_of(record).word;
        if (const auto i = refused_in(c, record))
            return "record " + words(c.why.place) + " (" + word + " " + words(*i) + "): there are " +
                   words(count_of(c.request(), record)) + " " + word + "s, and " + words(row_of(record).most) +
                   " are the most";
    }
    return "";
}

// The kinds that may stand in nodes, or in rules.
inline std::string kinds_allowed(bool KindRow::*where) {
    std::vector<std::string> all;
    for (const KindRow &row : kinds)
        if (row.*where) all.push_back(words(row.kind) + " (" + row.word + ")");
    return joined(all, " or ");
}

inline std::string bad_node(const Case &c) {
    const auto i = refused_in(c, Record::node);
    if (!i) return "";
    const Node &n = c.request().nodes[*i];
    const KindRow *row = row_of(n.kind);
    const std::string cause =
        !row || !row->in_nodes
            ? "its kind is " + words(n.kind) + ", and a node's is " + kinds_allowed(&KindRow::in_nodes)
            : "its address is " + words(n.address) + ", and a " + row->word + " has 0";
    return said_node(c.request(), *i, cause);
}

inline std::string bad_edge(const Case &c) {
    const Request &r = c.request();
    const auto i = refused_in(c, Record::edge);
    if (!i) return "";
    const Edge &e = r.edges[*i];
    const auto cause = [&]() -> std::string {
        if (e.from >= r.nodes.size()) return no_node(r, e.from);
        if (e.to >= r.nodes.size()) return no_node(r, e.to);
        if (e.weight == 0) return "its weight is 0, and 1 is the least";
        for (std::size_t k = 0; k < *i; ++k)
            if (r.edges[k].from == e.from && r.edges[k].to == e.to) return "edge " + words(k) + " is the same pair";
        return fence_sentence(c.why.answer);
    };
    return said_edge(r, *i, cause());
}

// What is wrong with one side; `first` is the variable that stands left of it, 0 if none does.
inline std::string bad_side(Side side, const std::string &which, unsigned first) {
    const KindRow *row = row_of(side.kind);
    const std::string variable = "its " + which + " variable is " + words(side.variable);
    if (!row || !row->in_rules)
        return "its " + which + " kind is " + words(side.kind) + ", and a rule's is " +
               kinds_allowed(&KindRow::in_rules);
    if (!row->addressed) return side.variable == 0 ? "" : variable + ", and " + row->word + " has 0";
    if (side.variable == 1 || (side.variable == 2 && first == 1)) return "";
    return variable + (first == 1 ? ", and must be 1 or 2" : ", and the first one used must be 1");
}

inline std::string bad_rule(const Case &c) {
    const auto i = refused_in(c, Record::rule);
    if (!i) return "";
    const Rule &rule = c.request().rules[*i];
    std::string cause = bad_side(rule.left, "left", 0);
    if (cause.empty()) cause = bad_side(rule.right, "right", rule.left.variable);
    if (cause.empty()) cause = fence_sentence(c.why.answer);
    return said(c.request(), Record::rule, *i, fields_of(rule), cause);
}

inline std::string bad_order(const Case &c) {
    const Request &r = c.request();
    const auto i = refused_in(c, Record::order);
    if (!i) return "";
    const Order &o = r.orders[*i];
    const auto cause = [&]() -> std::string {
        if (o.first >= r.nodes.size()) return no_node(r, o.first);
        if (o.second >= r.nodes.size()) return no_node(r, o.second);
        if (o.first == o.second) return "its two nodes are one";
        for (std::size_t k = 0; k < *i; ++k)
            if (r.orders[k].first == o.first && r.orders[k].second == o.second)
                return "order " + words(k) + " is the same";
        return fence_sentence(c.why.answer);
    };
    return said_order(r, *i, cause());
}

inline std::string fence_rule_lacking(const Case &c) {
    const auto has = [&](Kind left, Kind right) {
        return std::any_of(c.request().rules.begin(), c.request().rules.end(),
                           [=](const Rule &rule) { return rule.left.kind == left && rule.right.kind == right; });
    };
    const bool to = has(Kind::any, Kind::full_fence), from = has(Kind::full_fence, Kind::any);
    if (to && from) return "";
    return "the " + words(c.request().rules.size()) + " rules lack " + (to ? "" : "any to fence (3, 0, 2, 0)") +
           (to || from ? "" : " and ") + (from ? "" : "fence to any (2, 0, 3, 0)");
}

inline std::string no_order(const Case &c) {
    if (!c.asked) return "";
    return "there is no order " + words(*c.asked) + ", there are " + words(c.request().orders.size());
}

// Rerun's graph is the one without the fences that it took off: as many nodes and edges less.
inline std::string no_room(const Case &c) {
    const std::uint64_t nodes = c.request().nodes.size(), edges = c.request().edges.size();
    const std::uint64_t taken = c.asked && *c.asked <= nodes ? nodes - *c.asked : 0;
    if (nodes > row_of(Record::node).most || edges > row_of(Record::edge).most || taken > edges) return "";
    const std::uint64_t room =
        std::min(row_of(Record::node).most - (nodes - taken), row_of(Record::edge).most - (edges - taken));
    return words(nodes - taken) + " nodes of at most " + words(row_of(Record::node).most) + " and " +
           words(edges - taken) + " edges of at most " + words(row_of(Record::edge).most) + " leave room for " +
           words(room) + (room == 1 ? " fence" : " fences") + ", and the orders need more";
}

// The edges that end at a node, and those that start there.
struct Ends {
    std::vector<std::size_t> to, from;
};

inline Ends ends_at(const Request &r, std::size_t node) {
    Ends found;
    for (std::size_t e = 0; e < r.edges.size(); ++e) {
        if (r.edges[e].to == node) found.to.push_back(e);
        if (r.edges[e].from == node) found.from.push_back(e);
    }
    return found;
}

// Why the highest node isn't as run adds it; empty where it is. `whole` is the file, where records have their
// numbers.
inline std::string unlike_added(const Request &r, const Ends &ends, const Request &whole) {
    const std::size_t node = r.nodes.size() - 1;
    if (r.nodes[node].kind != Kind::full_fence) return said_node(whole, node, "it would go, and is no fence");
    if (ends.to.size() != 1 || ends.from.size() != 1)
        return said_node(whole, node,
                         "edges that lead to it: " + words(ends.to.size()) +
                             ", from it: " + words(ends.from.size()) + ", where a fence of run's has one of each");
    const std::size_t to = ends.to[0], from = ends.from[0];
    const Edge &kept = r.edges[to], &last = r.edges[from];
    if (to == from) return said_edge(whole, to, "it leads from the node that would go to itself");
    if (from + 1 != r.edges.size())
        return said_edge(whole, from,
                         "it leads from the node that would go, and edge " + words(from + 1) + " stands after it");
    if (kept.weight != last.weight)
        return said_edge(whole, from,
                         "its weight is " + words(last.weight) + ", and edge " + words(to) +
                             ", which leads to its fence, has " + words(kept.weight));
    for (std::size_t e = 0; e < r.edges.size(); ++e)
        if (r.edges[e].from == kept.from && r.edges[e].to == last.to)
            return said_edge(whole, to,
                             "joined with edge " + words(from) + " it would lead from " + words(kept.from) +
                                 " to " + words(last.to) + ", as edge " + words(e) + " does");
    return "";
}

// Takes nodes off as strip does, up to the one that it stops at, and says why it does.
inline std::string node_kept(const Request &whole, std::uint64_t count) {
    for (Request left = whole; left.nodes.size() > count;) {
        const Ends ends = ends_at(left, left.nodes.size() - 1);
        const std::string cause = unlike_added(left, ends, whole);
        if (!cause.empty()) return cause;
        left.edges[ends.to[0]].to = left.edges.back().to;
        left.edges.pop_back();
        left.nodes.pop_back();
    }
    return "";
}

inline std::string not_stripped(const Case &c) {
    if (!c.asked) return "";
    const Request &whole = c.request();
    if (*c.asked > whole.nodes.size())
        return "the count is " + words(*c.asked) + ", and there are " + words(whole.nodes.size()) + " nodes";
    for (std::size_t i = 0; i < whole.orders.size(); ++i)
        for (std::uint16_t node : {whole.orders[i].first, whole.orders[i].second})
            if (node >= *c.asked)
                return said_order(
                    whole, i,
                    "it names node " + words(node) + ", and only " + words(*c.asked) + " nodes would stay");
    return node_kept(whole, *c.asked);
}

// Who says more of an answer than its sentence: a new answer is a line here. They say nothing where the refusal
// isn't one of this file.
struct AnswerRow {
    std::uint64_t answer;
    std::string (*say)(const Case &);
};
inline constexpr AnswerRow answers[] = {
    {1, unreadable}, {2, too_many},           {3, bad_node}, {4, bad_edge}, {5, bad_rule},
    {6, bad_order},  {7, fence_rule_lacking}, {8, no_order}, {9, no_room},  {10, not_stripped},
};

}  // namespace detail

// A refusal of this file in one sentence that names the record, the field and the value:
//     record 7 (edge 3, from 0 to 4, weight 1): there is no node 4, there are 4
// `asked` is the order that ask was given, or the count that strip or rerun was given.
inline std::string explain(const Refusal &why, Bytes file, std::optional<std::uint64_t> asked = std::nullopt) {
    std::string said;
    for (const detail::AnswerRow &row : detail::answers)
        if (row.answer == why.answer) said = row.say({why, file, detail::reading(file), asked});
    return said.empty() ? why.sentence() : said;
}

}  // namespace fence

#endif
#endif
