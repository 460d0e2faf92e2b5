// `rwatch`: margins as rows come. After each row every node tells its margin up to its front, which follows the time of the last row, and
// the node above takes it from there.
#pragma once
#include <algorithm>
#include <vector>

#include "formula.h"
#include "margin.h"
#include "place.h"
#include "queue.h"
#include "robust.h"
#include "text.h"
#include "trace.h"

// A point of a margin, with the gap before it, which reaches back to the point before.
struct Knot {
    FineCut at;
    Shape gap, point;
    bool inside = false;  // what it is there, and about it, stands among the tops of the window above
};

// A time that no window comes to.
static constexpr FineCut never{int64_t(1) << 61, 0, 1};

static bool before(const FineCut& a, const FineCut& b) { return order_of_times(a, b) < 0; }
static bool meet(const FineCut& a, const FineCut& b) { return order_of_times(a, b) == 0; }
static FineCut moved(const FineCut& c, int64_t by) { return moved(c, by, false); }

// Whether a knot can be left out before a gap of that shape.
static bool is_plain(const Knot& k, const Shape& next) { return same(k.gap, next) && sign_at(k.gap, k.point, k.at) == 0; }

// A node as rows come.
class MarginStage {
public:
    Queue<Knot> knots;     // what is told, and still needed above
    Shape nothing{};       // what the window above makes of times outside the trace
    int64_t front = 0;     // all times up to here are told; it may lie before the start

    MarginStage(const Node& node, int digits)
        : node(node), low(node.low.in(digits)), high(node.high.in(digits)), low_in(node.low_in), high_in(node.high_in) {
        least = node.kind == Kind::always || node.kind == Kind::historically || node.kind == Kind::both;
        endless = !node.bounded;
        if (node.kind == Kind::once || node.kind == Kind::historically) {
            std::swap(low, high);
            std::swap(low_in, high_in);
            low = -low;
            high = -high;
        }
        none = {least ? infinite : -infinite, 0, 1, 0};
    }
    bool is_window() const { return node.kind >= Kind::eventually; }
    void begin(int64_t time) {
        start = time;
        front = time - 1;
        at = cut<uint64_t>(time, false);
        low_gap = high_gap = none;
        low_until = moved(at, -low);
        high_until = moved(at, -high);
    }
    void tell(const Shape& gap, int64_t time, const Shape& point) {
        knots.push_back({cut<uint64_t>(time, false), knots.empty() && time == start ? nothing : gap, point});
        front = time;
    }
    // Goes on after a row at `now`, or with `ended` after the last row.
    void go(vector<MarginStage>& stages, int64_t now, bool ended) {
        if (node.kind == Kind::atom) return;
        if (node.kind == Kind::constant) {
            const Shape shape{node.holds ? infinite : -infinite, 0, 1, 0};
            if (!ended) tell(shape, now, shape);
            return;
        }
        MarginStage& left = stages[size_t(node.left)];
        MarginStage* right = node.right < 0 ? nullptr : &stages[size_t(node.right)];
        int64_t to = ended ? now : right ? std::min(left.front, right->front) : is_window() ? std::min(left.front - high, now) : left.front;
        if (ended && is_window()) left.knots.push_back({never, none, none});
        if (to < start || to <= front) {
            if (!begun) front = to;
            return;
        }
        front = to;
        fresh = knots.size();
        if (node.kind == Kind::negation) negate(left);
        else if (right) least ? connect<true>(left, *right) : connect<false>(left, *right);
        else least ? window<true>(left) : window<false>(left);
        begun = true;
    }

private:
    const Node& node;
    int64_t low, high;  // a window goes from t + low to t + high
    bool low_in, high_in, least, endless, begun = false;
    Shape none{};
    int64_t start = 0;
    size_t fresh = 0;  // the knots from here on are of this stretch
    FineCut at{};      // up to here the window is told
    // The gaps about the ends of the window, and when the ends come to the knots behind them, all as seen from the window's own time.
    Shape low_gap{}, high_gap{};
    FineCut low_until{}, high_until{};
    size_t entered = 0;  // the knot behind the high end's gap
    struct Top {
        Value value;
        uint64_t place;
    };
    Queue<Top> tops;  // what may still be the best of the knots between the ends
    uint64_t came = 0, left_behind = 0;

    void put(const Shape& gap, const FineCut& to, const Shape& point) {
        if (knots.size() > fresh && is_plain(knots.back(), gap)) {
            Knot& last = knots.back();
            last.at = to;
            last.point = point;
            return;
        }
        knots.push_back({to, gap, point});
    }
    void put_first(const Shape& point) {
        knots.push_back({at, nothing, point});
        fresh = knots.size();
    }
    void negate(MarginStage& of) {
        for (; !of.knots.empty(); of.knots.pop_front()) {
            const Knot& k = of.knots.front();
            if (!begun && knots.empty()) put_first(negative(k.point));
            else put(negative(k.gap), k.at, negative(k.point));
        }
    }
    template <bool least>
    static const Shape& better(const Shape& f, const Shape& g, const FineCut& at) {
        return (sign_at(f, g, at) >= 0) != least ? f : g;
    }
    // What the left input is, as the connective takes it.
    Shape taken(const Shape& s) const { return node.kind == Kind::implies ? negative(s) : s; }
    template <bool least>
    void connect(MarginStage& p, MarginStage& q) {
        const FineCut to = cut<uint64_t>(front, false);
        if (!begun) {
            put_first(better<least>(taken(p.knots.front().point), q.knots.front().point, at));
            p.knots.pop_front();
            q.knots.pop_front();
        }
        while (before(at, to)) {
            const Knot &i = p.knots.front(), &k = q.knots.front();
            int o = order_of_times(i.at, k.at);
            const FineCut next = std::min(o <= 0 ? i.at : k.at, to);
            const Shape gap = taken(i.gap);
            pick<least, false>(at, next, gap, k.gap, [&](const FineCut&, const FineCut& end, const Shape& s) { put(s, end, s); });
            bool i_ends = meet(i.at, next), k_ends = meet(k.at, next);
            knots.back().point = better<least>(i_ends ? taken(i.point) : gap, k_ends ? k.point : k.gap, next);
            if (i_ends) p.knots.pop_front();
            if (k_ends) q.knots.pop_front();
            at = next;
        }
    }
    template <bool least>
    void window(MarginStage& of) {
        const FineCut to = cut<uint64_t>(front, false);
        if (!endless && low == high) return low_in && high_in ? instant(of, to) : empty(of, to);
        if (!begun) {
            while (before(high_until, at)) pass_high<least>(of);
            while (!endless && before(low_until, at)) pass_low(of);
            put_first(point<least>(of, at));
        }
        while (before(at, to)) {
            if (meet(high_until, at)) pass_high<least>(of);
            FineCut next = before(high_until, to) ? high_until : to;
            if (!endless && before(low_until, next)) next = low_until;
            auto give = [&](const FineCut&, const FineCut& end, const Shape& s) { put(s, end, s); };
            auto over_tops = [&](const FineCut& a, const FineCut& b, const Shape& s) {
                if (tops.empty()) give(a, b, s);
                else pick<least, false>(a, b, s, shape_of(tops.front().value), give);
            };
            if (endless) over_tops(at, next, high_gap);
            else pick<least, false>(at, next, low_gap, high_gap, over_tops);
            knots.back().point = point<least>(of, next);
            at = next;
        }
    }
    // The margin at a time that no end passes; the low end goes on from a knot there.
    template <bool least>
    Shape point(MarginStage& of, const FineCut& t) {
        Shape best = high_gap;
        if (high_in && meet(high_until, t)) best = better<least>(best, moved(of.knots[entered].point, -high), t);
        if (!endless) {
            if (meet(low_until, t)) {
                if (low_in) best = better<least>(best, moved(of.knots.front().point, -low), t);
                pass_low(of);
            }
            best = better<least>(best, low_gap, t);
        }
        return tops.empty() ? best : better<least>(best, shape_of(tops.front().value), t);
    }
    // The high end goes on from a knot, which comes between the ends if it is one and is there at the start or later.
    template <bool least>
    void pass_high(MarginStage& of) {
        Knot& k = of.knots[entered];
        const Shape& next = of.knots[entered + 1].gap;
        if ((endless || before(cut<uint64_t>(start + low, false), k.at)) && !is_plain(k, next)) {
            Value value = value_at(better<least>(better<least>(k.gap, k.point, k.at), next, k.at), k.at);
            if (endless && !tops.empty()) {
                if ((order(value, tops.front().value) < 0) == least) tops.clear();
            }
            while (!tops.empty() && !endless && (least ? order(value, tops.back().value) <= 0 : order(value, tops.back().value) >= 0)) tops.pop_back();
            if (!endless || tops.empty()) tops.push_back({value, came});
            came++;
            k.inside = true;
        }
        high_gap = moved(next, -high);
        high_until = moved(of.knots[entered + 1].at, -high);
        if (endless) of.knots.pop_front();
        else entered++;
    }
    void pass_low(MarginStage& of) {
        if (of.knots.front().inside) {
            if (tops.front().place == left_behind) tops.pop_front();
            left_behind++;
        }
        of.knots.pop_front();
        entered--;
        low_gap = moved(of.knots.front().gap, -low);
        low_until = moved(of.knots.front().at, -low);
    }
    // A window of one instant moves its input.
    void instant(MarginStage& of, const FineCut& to) {
        if (!begun) {
            while (before(high_until, at)) step(of);
            put_first(meet(high_until, at) ? moved(of.knots.front().point, -high) : high_gap);
        }
        while (before(at, to)) {
            if (meet(high_until, at)) step(of);
            const FineCut next = before(high_until, to) ? high_until : to;
            put(high_gap, next, meet(high_until, next) ? moved(of.knots.front().point, -high) : high_gap);
            at = next;
        }
    }
    void step(MarginStage& of) {
        of.knots.pop_front();
        high_gap = moved(of.knots.front().gap, -high);
        high_until = moved(of.knots.front().at, -high);
    }
    void empty(MarginStage& of, const FineCut& to) {
        of.knots.clear();
        if (!begun) put_first(none);
        if (before(at, to)) put(none, to, none);
        at = to;
    }
};

// Writes what the root tells.
class StreamLines {
public:
    StreamLines(Output& out, Scale scale) : out(out), ticks(power(scale.time)), units(power(scale.value)) {}
    void take(Queue<Knot>& knots) {
        for (; !knots.empty(); knots.pop_front()) line(knots.front());
    }

private:
    Output& out;
    int64_t ticks, units;
    Text texts[5];
    Text *from = &texts[0], *from_value = &texts[1], *to = &texts[2], *to_value = &texts[3], *value = &texts[4];
    bool any = false;
    FineCut last{};
    Shape last_point{};

    void line(const Knot& k) {
        put_time(*to, k.at, ticks);
        put_value(*value, k.point, k.at, units);
        if (any) {
            if (sign_at(k.gap, last_point, last) != 0) put_value(*from_value, k.gap, last, units);
            bool reached = sign_at(k.gap, k.point, k.at) == 0;
            if (!reached) put_value(*to_value, k.gap, k.at, units);
            out.line('(', *from, ',', *to, ") ", *from_value, " -> ", reached ? *value : *to_value, '\n');
        }
        out.line('[', *to, "] ", *value, '\n');
        any = true;
        std::swap(from, to);
        std::swap(from_value, value);
        last = k.at;
        last_point = k.point;
    }
};

static void rwatch(const vector<Node>& nodes, Reader& reader, Scale scale, Output& out) {
    vector<MarginStage> stages;
    vector<std::pair<Sum, size_t>> atoms;
    for (size_t k = 0; k < nodes.size(); k++) {
        if (nodes[k].kind == Kind::until || nodes[k].kind == Kind::since) refuse("not streamed", 3);
        stages.emplace_back(nodes[k], scale.time);
        if (nodes[k].kind == Kind::atom) atoms.emplace_back(Sum(nodes[k], reader.columns, scale.value), k);
    }
    for (const Node& node : nodes)
        if (node.kind >= Kind::eventually)
            stages[size_t(node.left)].nothing = {node.kind == Kind::always || node.kind == Kind::historically ? infinite : -infinite, 0, 1, 0};
    StreamLines lines(out, scale);
    auto go = [&](int64_t now, bool ended) {
        for (MarginStage& stage : stages) stage.go(stages, now, ended);
        lines.take(stages.back().knots);
    };
    Domain in = read_rows<uint32_t>(reader, [&](int64_t last, const int64_t* row, bool first) {
        if (first)
            for (MarginStage& stage : stages) stage.begin(row[0]);
        for (auto& [sum, place] : atoms) {
            sum.go(row);
            int64_t rise = sum.limit - sum.before;
            const Shape gap = rise == 0 ? Shape{sum.before, 0, 1, 0} : Shape{last, sum.before, rise, uint32_t(row[0] - last)};
            stages[place].tell(gap, row[0], {sum.value, 0, 1, 0});
        }
        go(row[0], false);
    });
    go(in.to.whole(), true);
}
