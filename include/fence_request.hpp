// fence_request.hpp: a request as lists that a person builds. Gives its bytes, reads bytes back, says where run put
// fences and why a file was refused, and draws it. Header only, C++17, over fence.hpp.
//
//     fence::Request push;
//     push.rule(fence::load(1), fence::load(2));
//     push.store("slot", "fill");
//     push.store("tail", "publish");
//     push.edge("fill", "publish").order("fill", "publish");
//     const auto file = push.bytes();
//     if (const auto done = fence::run(file))
//         for (const auto &p : fence::placed(push, fence::Request::read(done->file).value()))
//             std::cout << "a fence between " << push.name(p.from) << " and " << push.name(p.to) << '\n';
//     else
//         std::cerr << fence::explain(done.refusal(), file) << '\n';
//
// Nothing here is proved. What a file means and whether it is accepted is the library's word alone: these lists are
// written and read as they are, and `explain` only finds words for an answer that the library gave.
#ifndef FENCE_REQUEST_HPP
#define FENCE_REQUEST_HPP

#include "fence.hpp"

#if __cplusplus >= 201703L

#include <algorithm>
#include <initializer_list>
#include <optional>
#include <ostream>

namespace fence {

enum class Kind : std::uint8_t { store = 0, load = 1, full_fence = 2, any = 3 };
enum class Record { node, edge, rule, order, end };

namespace detail {

// All that is known here of a kind: a new one is a name above and a line here.
struct KindRow {
    Kind kind;
    const char *word;
    bool addressed, in_nodes, in_rules;
};
inline constexpr KindRow kinds[] = {
    {Kind::store, "store", true, true, true},
    {Kind::load, "load", true, true, true},
    {Kind::full_fence, "fence", false, true, true},
    {Kind::any, "any", false, false, true},
};

// And of a record, in the order in which they stand in a file.
struct RecordRow {
    const char *mark, *word;
    std::size_t size, most;
};
inline constexpr RecordRow records[] = {
    {"ND", "node", 4, 512}, {"ED", "edge", 8, 1024}, {"RU", "rule", 6, 32},
    {"OR", "order", 6, 32}, {"EN", "end", 2, 1},
};

inline const RecordRow &row_of(Record record) { return records[static_cast<std::size_t>(record)]; }

}  // namespace detail

struct Node {
    Kind kind;
    std::uint8_t address;   // 0 for a fence
    std::string name = {};  // for people: a file has no names
};
struct Edge {
    std::uint16_t from, to, weight;
};
struct Side {
    Kind kind;
    std::uint8_t variable;  // 1 or 2, which stands for an address; 0 for a fence and for any
};
struct Rule {
    Side left, right;
};
struct Order {
    std::uint16_t first, second;
    std::string name = {};
};

// The sides of rules: rule(store(1), load(1)) keeps a store before a load of the same address, rule(store(1),
// load(2)) before a load of any.
constexpr Side store(std::uint8_t variable) { return {Kind::store, variable}; }
constexpr Side load(std::uint8_t variable) { return {Kind::load, variable}; }
constexpr Side full_fence() { return {Kind::full_fence, 0}; }
constexpr Side any() { return {Kind::any, 0}; }

// A node or an address, by its number or by its name.
class Ref {
public:
    template <class Number, class = std::enable_if_t<std::is_integral_v<Number>>>
    Ref(Number number) : number_(static_cast<std::uint64_t>(number)) {}
    Ref(const char *name) : name_(name) {}
    Ref(std::string name) : name_(std::move(name)) {}

    std::optional<std::uint64_t> number() const { return number_; }
    const std::string &name() const { return name_; }

private:
    std::optional<std::uint64_t> number_;
    std::string name_;
};

// The builders throw std::invalid_argument where a name is unknown or given twice, or a number has no room in its
// field. All else is for run, ask and strip to judge.
struct Request {
    std::vector<Node> nodes;
    std::vector<Edge> edges;
    std::vector<Rule> rules = {{any(), fence::full_fence()},
                               {fence::full_fence(), any()}};  // every file needs these
    std::vector<Order> orders;
    std::vector<std::string> addresses;  // the names of addresses, by their numbers, where names are used

    // Each adds a node and gives its number.
    std::uint16_t store(const Ref &address, std::string name = "") {
        return add(Kind::store, address, std::move(name));
    }
    std::uint16_t load(const Ref &address, std::string name = "") {
        return add(Kind::load, address, std::move(name));
    }
    std::uint16_t full_fence(std::string name = "") { return add({Kind::full_fence, 0, std::move(name)}); }

    Request &edge(const Ref &from, const Ref &to, std::uint64_t weight = 1);
    Request &path(std::initializer_list<Ref> steps, std::uint64_t weight = 1);  // an edge from each to the next
    Request &rule(Side left, Side right);
    Request &order(const Ref &first, const Ref &second, std::string name = "");

    std::uint16_t number(const Ref &node) const;
    std::string name(std::size_t node) const;  // its own, or what it does: "store 7"
    std::string order_name(std::size_t order) const;

    std::vector<std::uint8_t> bytes() const;

    // The lists of a file, whatever is in their fields; refused where a record can't be read (answer 1). Names are
    // taken from `named`, by number: what run and strip write has the same nodes and orders in front.
    static Result<Request> read(Bytes file);
    static Result<Request> read(Bytes file, const Request &named);

private:
    std::uint16_t add(Kind kind, const Ref &address, std::string name);
    std::uint16_t add(Node node);
    std::uint8_t address(const Ref &address);
};

// A file record by record, for programs with lists of their own. It stops where the library says that the file
// can't be read; whether a file is a request is for run, ask and strip to say.
class Reader {
public:
    explicit Reader(Bytes file) : file_(file) {}

    // Takes the next record if it is one of these, with all its bytes.
    bool next(Record record) {
        const detail::RecordRow &row = detail::row_of(record);
        const std::uint8_t *at = file_.data() + end_;
        if (file_.size() - end_ < row.size || at[0] != row.mark[0] || at[1] != row.mark[1]) return false;
        fields_ = at + 2;
        end_ += row.size;
        return true;
    }
    std::size_t end() const { return end_; }
    std::uint8_t byte(int n) const { return fields_[n]; }
    Kind kind(int n) const { return static_cast<Kind>(fields_[n]); }
    std::uint16_t number(int n) const {
        return static_cast<std::uint16_t>(fields_[2 * n] | fields_[2 * n + 1] << 8);
    }

private:
    Bytes file_;
    const std::uint8_t *fields_ = nullptr;
    std::size_t end_ = 0;
};

// A fence that run added: its node, and the edge that it stands on, by number and as it was before.
struct Placed {
    std::uint16_t fence;
    std::size_t edge;
    std::uint16_t from, to, weight;
};

namespace detail {

inline std::string words(std::uint64_t number) { return std::to_string(number); }
inline std::string words(Kind kind) { return words(static_cast<std::uint64_t>(kind)); }

inline const KindRow *row_of(Kind kind) {
    for (const KindRow &row : kinds)
        if (row.kind == kind) return &row;
    return nullptr;
}

inline std::string kind_word(Kind kind) {
    const KindRow *row = row_of(kind);
    return row ? row->word : "kind " + words(kind);
}

inline std::uint16_t field(std::uint64_t number, std::uint64_t most, const char *what) {
    if (number > most)
        raise(std::invalid_argument(std::string(what) + " is at most " + words(most) + ", not " + words(number)));
    return static_cast<std::uint16_t>(number);
}

inline void put(std::vector<std::uint8_t> &out, Record record, std::initializer_list<unsigned> fields, int width) {
    for (int letter : {0, 1}) out.push_back(static_cast<std::uint8_t>(row_of(record).mark[letter]));
    for (unsigned field : fields)
        for (int byte = 0; byte < width; ++byte, field >>= 8) out.push_back(static_cast<std::uint8_t>(field & 255));
}

// As much of a file as can be read: its lists, where they end, and whether EN ended them.
struct Reading {
    Request request;
    std::size_t end;
    bool ended;
};

inline Reading reading(Bytes file) {
    Request r;
    r.rules.clear();
    Reader at(file);
    while (at.next(Record::node)) r.nodes.push_back({at.kind(0), at.byte(1)});
    while (at.next(Record::edge)) r.edges.push_back({at.number(0), at.number(1), at.number(2)});
    while (at.next(Record::rule)) r.rules.push_back({{at.kind(0), at.byte(1)}, {at.kind(2), at.byte(3)}});
    while (at.next(Record::order)) r.orders.push_back({at.number(0), at.number(1)});
    const bool ended = at.next(Record::end);
    return {std::move(r), at.end(), ended};
}

}  // namespace detail

inline Request &Request::edge(const Ref &from, const Ref &to, std::uint64_t weight) {
    edges.push_back({number(from), number(to), detail::field(weight, 65535, "a weight")});
    return *this;
}

inline Request &Request::path(std::initializer_list<Ref> steps, std::uint64_t weight) {
    for (const Ref *at = steps.begin(); at != steps.end() && at + 1 != steps.end(); ++at)
        edge(at[0], at[1], weight);
    return *this;
}

inline Request &Request::rule(Side left, Side right) {
    rules.push_back({left, right});
    return *this;
}

inline Request &Request::order(const Ref &first, const Ref &second, std::string name) {
    orders.push_back({number(first), number(second), std::move(name)});
    return *this;
}

inline std::uint16_t Request::number(const Ref &node) const {
    if (node.number()) return detail::field(*node.number(), 65535, "a node's number");
    for (std::size_t i = 0; i < nodes.size(); ++i)
        if (nodes[i].name == node.name() && !node.name().empty()) return detail::field(i, 65535, "a node's number");
    detail::raise(std::invalid_argument("there is no node named '" + node.name() + "'"));
}

inline std::string Request::name(std::size_t node) const {
    if (node >= nodes.size()) return "node " + detail::words(node);
    const Node &n = nodes[node];
    if (!n.name.empty()) return n.name;
    const detail::KindRow *row = detail::row_of(n.kind);
    if (!row || !row->addressed) return detail::kind_word(n.kind);
    return row->word + (" " + (n.address < addresses.size() ? addresses[n.address] : detail::words(n.address)));
}

inline std::string Request::order_name(std::size_t order) const {
    const bool named = order < orders.size() && !orders[order].name.empty();
    return named ? orders[order].name : "order " + detail::words(order);
}

inline std::uint16_t Request::add(Kind kind, const Ref &address, std::string name) {
    return add({kind, this->address(address), std::move(name)});
}

inline std::uint16_t Request::add(Node node) {
    for (const Node &other : nodes)
        if (!node.name.empty() && other.name == node.name)
            detail::raise(std::invalid_argument("two nodes are named '" + node.name + "'"));
    const std::uint16_t number = detail::field(nodes.size(), 65535, "a node's number");
    nodes.push_back(std::move(node));
    return number;
}

// Names get numbers as they come. Beside typed numbers that might give two places one address, and so an order that
// isn't there: a request has the ones or the others.
inline std::uint8_t Request::address(const Ref &address) {
    const bool by_number = addresses.empty() && std::any_of(nodes.begin(), nodes.end(), [](const Node &n) {
                               const detail::KindRow *row = detail::row_of(n.kind);
                               return row && row->addressed;
                           });
    if (address.number() ? !addresses.empty() : by_number)
        detail::raise(std::invalid_argument("addresses are all numbers or all names"));
    if (address.number()) return static_cast<std::uint8_t>(detail::field(*address.number(), 255, "an address"));
    const auto known = std::find(addresses.begin(), addresses.end(), address.name());
    const auto number = static_cast<std::size_t>(known - addresses.begin());
    const auto found = static_cast<std::uint8_t>(detail::field(number, 255, "an address"));
    if (known == addresses.end()) addresses.push_back(address.name());
    return found;
}

inline std::vector<std::uint8_t> Request::bytes() const {
    std::vector<std::uint8_t> out;
    const auto number = [](Kind kind) { return static_cast<unsigned>(kind); };
    for (const Node &n : nodes) detail::put(out, Record::node, {number(n.kind), n.address}, 1);
    for (const Edge &e : edges) detail::put(out, Record::edge, {e.from, e.to, e.weight}, 2);
    for (const Rule &r : rules)
        detail::put(out, Record::rule,
                    {number(r.left.kind), r.left.variable, number(r.right.kind), r.right.variable}, 1);
    for (const Order &o : orders) detail::put(out, Record::order, {o.first, o.second}, 2);
    detail::put(out, Record::end, {}, 0);
    return out;
}

inline Result<Request> Request::read(Bytes file) { return read(file, Request()); }

inline Result<Request> Request::read(Bytes file, const Request &named) {
    detail::Reading found = detail::reading(file);
    if (!found.ended || found.end != file.size()) return Refusal{1, found.end};
    Request &r = found.request;
    r.addresses = named.addresses;
    for (std::size_t i = 0; i < std::min(r.nodes.size(), named.nodes.size()); ++i)
        r.nodes[i].name = named.nodes[i].name;
    for (std::size_t i = 0; i < std::min(r.orders.size(), named.orders.size()); ++i)
        r.orders[i].name = named.orders[i].name;
    return std::move(r);
}

// The fences that one run or several put on the edges of `before` to make `after`, in node order.
inline std::vector<Placed> placed(const Request &before, const Request &after) {
    std::vector<Placed> all;
    for (std::size_t e = 0; e < std::min(before.edges.size(), after.edges.size()); ++e) {
        const Edge &was = before.edges[e];
        // Several runs may have put several fences on one edge; no file has more fences than nodes.
        for (std::uint16_t at = after.edges[e].to; at >= before.nodes.size() && all.size() < after.nodes.size();) {
            all.push_back({at, e, was.from, was.to, was.weight});
            const auto on = std::find_if(after.edges.begin() + static_cast<std::ptrdiff_t>(before.edges.size()),
                                         after.edges.end(), [at](const Edge &edge) { return edge.from == at; });
            if (on == after.edges.end()) break;
            at = on->to;
        }
    }
    std::sort(all.begin(), all.end(), [](const Placed &a, const Placed &b) { return a.fence < b.fence; });
    return all;
}

// May a load of an address that nothing else uses stand for a block without accesses, under these rules? It may
// where it joins no two labels that the rules themselves leave apart. A refusal is one of the rules.
inline Result<bool> neutral(const std::vector<Rule> &rules) {
    const Node made_up{Kind::load, 0};
    const Node all[] = {
        {Kind::store, 1}, {Kind::store, 2}, {Kind::load, 1}, {Kind::load, 2}, {Kind::full_fence, 0}};
    const auto held = [&](std::vector<Node> line) {
        Request r;
        r.nodes = std::move(line);
        r.rules = rules;
        for (std::size_t i = 0; i + 1 < r.nodes.size(); ++i) r.edge(i, i + 1);
        return ask(r.order(0, r.nodes.size() - 1).bytes(), 0);
    };
    for (const Node &first : all)
        for (const Node &second : all) {
            const Result<Asked> alone = held({first, second}), joined = held({first, made_up, second});
            if (!alone || !joined) return (alone ? joined : alone).refusal();
            if (joined->held() && !alone->held()) return false;
        }
    return true;
}

namespace detail {

inline std::string quoted(const std::string &text) {
    std::string all = "\"";
    for (char c : text) {
        if (c == '"' || c == '\\') all += '\\';
        all += c;
    }
    return all + '"';
}

// Marks the edges of a route.
inline void mark(const Request &r, const std::vector<std::uint16_t> &route, std::vector<bool> &marked) {
    for (std::size_t k = 0; k + 1 < route.size(); ++k)
        for (std::size_t e = 0; e < r.edges.size(); ++e)
            if (r.edges[e].from == route[k] && r.edges[e].to == route[k + 1]) marked[e] = true;
}

}  // namespace detail

// A picture for Graphviz: edges with their weights, fences filled; orders dashed, green where held and red where
// open; red and thick the route that shows it. Orders of a request that isn't accepted are grey.
inline void draw(std::ostream &dot, const Request &r) {
    const std::vector<std::uint8_t> file = r.bytes();
    std::vector<bool> on_route(r.edges.size());
    dot << "digraph request {\n  node [shape=box, fontname=\"Helvetica\"];\n"
        << "  edge [fontname=\"Helvetica\", fontsize=11];\n";
    for (std::size_t n = 0; n < r.nodes.size(); ++n)
        dot << "  " << n << " [label=" << detail::quoted(std::to_string(n) + ": " + r.name(n))
            << (r.nodes[n].kind == Kind::full_fence ? ", style=filled, fillcolor=\"#f6c65b\"" : "") << "];\n";
    for (std::size_t o = 0; o < r.orders.size(); ++o) {
        const Result<Asked> asked = ask(file, o);
        if (asked) detail::mark(r, asked->route, on_route);
        const std::string word = !asked ? "" : asked->held() ? ": held" : ": open";
        const char *colour = !asked ? "#777777" : asked->held() ? "#2b7a3d" : "#c0392b";
        dot << "  " << r.orders[o].first << " -> " << r.orders[o].second
            << " [style=dashed, constraint=false, color=\"" << colour << "\", fontcolor=\"" << colour
            << "\", label=" << detail::quoted(" " + r.order_name(o) + word) << "];\n";
    }
    for (std::size_t e = 0; e < r.edges.size(); ++e)
        dot << "  " << r.edges[e].from << " -> " << r.edges[e].to << " [label=\" " << r.edges[e].weight << '"'
            << (on_route[e] ? ", penwidth=2.5, color=\"#c0392b\"" : "") << "];\n";
    dot << "}\n";
}

}  // namespace fence

#include "fence_explain.hpp"

#endif
#endif
