// The set chooser's algorithm in plain C++, to compare speed and listings with: setlist [--places N] < SHEET
#include <cstdint>
#include <cstdio>
#include <cstdlib>
#include <cstring>
#include <optional>
#include <string>
#include <vector>

using u8 = uint8_t;
using u32 = uint32_t;
using u64 = uint64_t;
using i32 = int32_t;

constexpr u32 TERMINAL = UINT32_MAX;

struct Edge {
    i32 constant;
    u32 child;
    bool operator==(const Edge &o) const { return constant == o.constant && child == o.child; }
};

struct Node {
    u8 part;
    i32 value;
    u32 left, right;
    bool operator==(const Node &o) const { return part == o.part && value == o.value && left == o.left && right == o.right; }
};

struct Place {
    Node node;
    u32 next, head;
};

struct NodeTable {
    std::vector<Place> places;
    size_t used = 0;

    explicit NodeTable(size_t n) : places(n, Place{{0, 0, TERMINAL, TERMINAL}, 0, 0}) {}

    static u64 number(u32 c) { return c == TERMINAL ? 0 : u64(c) + 1; }

    size_t hash(const Node &n) const {
        return (number(n.left) * 97787311 + number(n.right) * 161800127 + u64(std::abs(i32(n.value))) * 57721583 + n.part) % places.size();
    }

    std::optional<Edge> make(u8 part, Edge fit, Edge out) {
        if (fit == out) return fit;
        Node n{part, fit.constant - out.constant, fit.child, out.child};
        if (places.empty()) return {};
        size_t h = hash(n);
        for (u32 link = places[h].head; link != 0; link = places[link - 1].next)
            if (places[link - 1].node == n) return Edge{out.constant, link - 1};
        if (used >= 60000 || used >= places.size()) return {};
        places[used].node = n;
        places[used].next = places[h].head;
        places[h].head = u32(used + 1);
        return Edge{out.constant, u32(used++)};
    }

    u8 part(u32 c) const { return c == TERMINAL ? 255 : places[c].node.part; }

    Edge settle(Edge e, u8 p, bool fitted) const {
        if (e.child == TERMINAL) return e;
        const Node &n = places[e.child].node;
        if (n.part != p) return e;
        return fitted ? Edge{e.constant + n.value, n.left} : Edge{e.constant, n.right};
    }
};

enum class Op : u8 { AtMost, AtLeast, Times };

struct Question {
    Op op;
    Edge left, right;
    bool operator==(const Question &o) const { return op == o.op && left == o.left && right == o.right; }
};

struct Slots {
    struct Pair {
        bool held;
        Question q;
        Edge e;
    };
    std::vector<Pair> slots;

    explicit Slots(size_t n) : slots(n) { clear(); }
    void clear() {
        for (auto &s : slots) s.held = false;
    }
    static u64 edge_hash(Edge e) { return NodeTable::number(e.child) * 1618033 + u64(std::abs(e.constant)) * 2718281; }
    size_t slot(const Question &q) const { return (edge_hash(q.left) + edge_hash(q.right) * 577 + u64(q.op)) % slots.size(); }
    std::optional<Edge> ask(const Question &q) const {
        const Pair &p = slots[slot(q)];
        if (p.held && p.q == q) return p.e;
        return {};
    }
    void note(const Question &q, Edge e) { slots[slot(q)] = Pair{true, q, e}; }
};

struct Limit {
    i32 coefficients[48];
    bool at_least;
    i32 bound;
};

struct Range {
    i32 low, high;
};

static std::optional<Edge> shortcut(const NodeTable &t, const Range *ranges, const Question &q) {
    if (q.op == Op::Times) {
        if (q.left.child == TERMINAL) return q.left.constant == 0 ? q.left : q.right;
        if (q.right.child == TERMINAL) return q.right.constant == 0 ? q.right : q.left;
        if (q.left == q.right) return q.left;
        return {};
    }
    i32 low = q.left.constant, high = q.left.constant, bound = q.right.constant;
    if (q.left.child != TERMINAL) {
        low += ranges[t.part(q.left.child)].low;
        high += ranges[t.part(q.left.child)].high;
    }
    bool yes = q.op == Op::AtMost ? high <= bound : bound <= low;
    bool no = q.op == Op::AtMost ? low > bound : bound > high;
    if (yes) return Edge{1, TERMINAL};
    if (no) return Edge{0, TERMINAL};
    return {};
}

static Question settled(const NodeTable &t, const Question &q, u8 part, bool fitted) {
    return {q.op, t.settle(q.left, part, fitted), t.settle(q.right, part, fitted)};
}

static std::optional<Edge> walk(NodeTable &t, const Range *ranges, Question q, Slots &memory) {
    struct Frame {
        Question q;
        u8 part;
        std::optional<Edge> fit;
    } stack[48];
    size_t depth = 0;
    std::optional<Edge> answer;
    for (;;) {
        if (!answer) {
            answer = shortcut(t, ranges, q);
            if (!answer) answer = memory.ask(q);
            if (!answer) {
                u8 a = t.part(q.left.child), b = t.part(q.right.child);
                u8 part = a < b ? a : b;
                stack[depth++] = Frame{q, part, {}};
                q = settled(t, q, part, true);
            }
            continue;
        }
        if (depth == 0) return answer;
        Frame &f = stack[depth - 1];
        if (!f.fit) {
            f.fit = answer;
            q = settled(t, f.q, f.part, false);
            answer.reset();
            continue;
        }
        auto made = t.make(f.part, *f.fit, *answer);
        if (!made) return {};
        memory.note(f.q, *made);
        answer = made;
        depth--;
    }
}

static std::optional<Edge> extend(NodeTable &t, u8 parts, Edge product, const Limit &l, Slots &memory) {
    memory.clear();
    Edge sum{0, TERMINAL};
    Range ranges[49] = {};
    for (int i = parts - 1; i >= 0; i--) {
        auto e = t.make(u8(i), Edge{sum.constant + l.coefficients[i], sum.child}, sum);
        if (!e) return {};
        sum = *e;
        ranges[i] = ranges[i + 1];
        (l.coefficients[i] < 0 ? ranges[i].low : ranges[i].high) += l.coefficients[i];
    }
    auto kept = walk(t, ranges, Question{l.at_least ? Op::AtLeast : Op::AtMost, sum, Edge{l.bound, TERMINAL}}, memory);
    if (!kept) return {};
    return walk(t, ranges, Question{Op::Times, product, *kept}, memory);
}

// Kinds of grade: mass, wait, mass-price.
struct Grade {
    i32 grams;
    u32 amount;
};

struct Kind {
    int code;
    Grade join(Grade a, Grade b) const {
        if (code == 1) return {0, a.amount > b.amount ? a.amount : b.amount};
        return {a.grams + b.grams, a.amount + b.amount};
    }
    bool no_later(Grade a, Grade b) const {
        if (code == 0) return a.grams <= b.grams;
        if (code == 1) return a.amount <= b.amount;
        return a.grams < b.grams || (a.grams == b.grams && a.amount <= b.amount);
    }
};

using Best = std::optional<Grade>;

struct Row {
    Best zero, one;
};

struct Solver {
    const NodeTable &t;
    Kind kind;
    const std::vector<Grade> &weights;
    std::vector<Row> rows;

    Best put_on(Grade w, Best b) const { return b ? Best(kind.join(w, *b)) : Best(); }
    bool stays_out(const Best &a, const Best &b) const { return a && (!b || kind.no_later(*a, *b)); }
    Best better(Best a, Best b) const { return stays_out(a, b) ? a : b; }

    Best at(bool one, u32 child, size_t from) const {
        size_t top = child == TERMINAL ? weights.size() : t.places[child].node.part;
        Best o = child == TERMINAL ? (one ? Best(Grade{0, 0}) : Best()) : (one ? rows[child].one : rows[child].zero);
        for (size_t j = top; j > from; j--) o = better(o, put_on(weights[j - 1], o));
        return o;
    }
    static bool fitted(bool one, const Node &n) { return n.value == 0 ? one : !one; }
    Best node_best(const Node &n, bool one) const {
        return better(at(one, n.right, n.part + 1u), put_on(weights[n.part], at(fitted(one, n), n.left, n.part + 1u)));
    }
    std::optional<std::pair<u64, Grade>> solve(Edge root) {
        rows.resize(t.used);
        for (size_t k = 0; k < t.used; k++) {
            Node n = t.places[k].node;
            rows[k] = Row{node_best(n, false), node_best(n, true)};
        }
        bool one = root.constant == 1;
        u32 child = root.child;
        Best grade = at(one, child, 0);
        if (!grade) return {};
        u64 choice = 0;
        for (size_t i = 0; i < weights.size(); i++) {
            bool fit_one = one, out_one = one;
            u32 fit = child, out = child;
            if (child != TERMINAL && t.places[child].node.part == i) {
                const Node &n = t.places[child].node;
                fit_one = fitted(one, n);
                fit = n.left;
                out = n.right;
            }
            if (stays_out(at(out_one, out, i + 1), put_on(weights[i], at(fit_one, fit, i + 1)))) {
                one = out_one;
                child = out;
            } else {
                choice |= u64(1) << i;
                one = fit_one;
                child = fit;
            }
        }
        return std::pair(choice, *grade);
    }
};

struct Fault {
    int number, layer;
    size_t place;
};

static u32 number(const std::vector<u8> &b, size_t &p, size_t end) {
    size_t at = p;
    u64 v = 0;
    for (int k = 0;; k++) {
        if (p >= end) throw Fault{1, 1, at};
        u8 x = b[p++];
        if (k == 4 && x > 15) throw Fault{2, 1, at};
        v |= u64(x & 127) << (7 * k);
        if (x < 128) {
            if (x == 0 && k > 0) throw Fault{2, 1, at};
            return u32(v);
        }
    }
}

static i32 signed_number(const std::vector<u8> &b, size_t &p, size_t end) {
    u32 n = number(b, p, end);
    return n % 2 == 0 ? i32(n / 2) : -1 - i32(n / 2);
}

static std::string list(const std::vector<u8> &b, size_t places) {
    if (b.size() > 32768) return "fault 16 layer 3 record 0 place 0\n";
    std::vector<std::string> names;
    std::vector<i32> masses;
    std::vector<u32> waits, prices;
    NodeTable table(places);
    Slots memory(4 * places);
    Edge product{1, TERMINAL};
    size_t at = 0, record = 0, limits = 0;
    int stage = 0, goal = 0;
    try {
        for (;; record++) {
            size_t p = at;
            u32 kind = number(b, p, b.size());
            if (kind > 4 || (kind == 1 && stage > 0) || (kind > 0 && stage > 1)) throw Fault{3, 2, at};
            u32 size = number(b, p, b.size());
            if (size > b.size() - p) throw Fault{4, 2, at};
            size_t end = p + size;
            if (kind == 0) {
                if (p != b.size()) throw Fault{4, 2, at};
                break;
            }
            if (kind == 1) {
                if (names.size() >= 48) throw Fault{7, 2, at};
                u32 n = number(b, p, end);
                if (n < 1 || n > 16) throw Fault{5, 2, at};
                if (n > end - p) throw Fault{4, 2, at};
                std::string name(b.begin() + p, b.begin() + p + n);
                for (char c : name)
                    if (c < 33 || c > 126) throw Fault{5, 2, at};
                for (auto &o : names)
                    if (o == name) throw Fault{5, 2, at};
                p += n;
                i32 mass = signed_number(b, p, end);
                if (mass < -1000000 || mass > 1000000) throw Fault{9, 2, at};
                u32 wait = number(b, p, end);
                if (wait > 1000000) throw Fault{9, 2, at};
                u32 price = number(b, p, end);
                if (price > 1000000) throw Fault{9, 2, at};
                if (p != end) throw Fault{4, 2, at};
                names.push_back(name), masses.push_back(mass), waits.push_back(wait), prices.push_back(price);
            } else if (kind == 4) {
                u32 code = number(b, p, end);
                if (code > 2) throw Fault{6, 2, at};
                if (p != end) throw Fault{4, 2, at};
                goal = int(code), stage = 2;
            } else {
                Limit l{};
                l.at_least = kind == 3;
                l.bound = signed_number(b, p, end);
                int last = -1;
                while (p < end) {
                    u32 i = number(b, p, end);
                    if (i > 47) throw Fault{7, 3, at};
                    if (int(i) <= last) throw Fault{8, 3, at};
                    i32 a = signed_number(b, p, end);
                    if (a < -1000000 || a > 1000000) throw Fault{9, 3, at};
                    l.coefficients[i] = a, last = int(i);
                }
                stage = 1;
                if (l.bound < -100000000 || l.bound > 100000000) throw Fault{9, 3, at};
                if (last >= int(names.size())) throw Fault{7, 3, at};
                if (limits >= 64) throw Fault{14, 3, at};
                auto e = extend(table, u8(names.size()), product, l, memory);
                if (!e) throw Fault{15, 3, at};
                product = *e, limits++;
            }
            at = end;
        }
    } catch (const Fault &f) {
        return "fault " + std::to_string(f.number) + " layer " + std::to_string(f.layer) + " record " + std::to_string(record) + " place " + std::to_string(f.place) + "\n";
    }
    std::vector<Grade> weights;
    for (size_t i = 0; i < names.size(); i++)
        weights.push_back(goal == 0 ? Grade{masses[i], 0} : goal == 1 ? Grade{0, waits[i]} : Grade{masses[i], prices[i]});
    Solver solver{table, Kind{goal}, weights, {}};
    auto answer = solver.solve(product);
    if (!answer) return "nothing fits\n";
    static const char *kinds[] = {"mass", "wait", "mass-price"};
    std::string out = std::string("goal ") + kinds[goal] + " ";
    if (goal != 1) out += std::to_string(answer->second.grams);
    if (goal == 2) out += " ";
    if (goal != 0) out += std::to_string(answer->second.amount);
    out += "\n";
    for (size_t i = 0; i < names.size(); i++)
        if (answer->first >> i & 1) out += "fit " + names[i] + "\n";
    return out;
}

int main(int argc, char **argv) {
    size_t places = argc == 3 && !strcmp(argv[1], "--places") ? strtoul(argv[2], nullptr, 10) : 1024;
    std::vector<u8> sheet;
    u8 buffer[65536];
    for (size_t n; (n = fread(buffer, 1, sizeof buffer, stdin)) > 0;) sheet.insert(sheet.end(), buffer, buffer + n);
    std::string out = list(sheet, places);
    fwrite(out.data(), 1, out.size(), stdout);
}
