// `robust`: the margin of a formula over a whole trace.
#pragma once
#include <algorithm>
#include <vector>

#include "formula.h"
#include "margin.h"
#include "place.h"
#include "queue.h"
#include "text.h"
#include "trace.h"

// The margin of one atom, put together as rows come.
class AtomMargin {
public:
    Signal signal;

    explicit AtomMargin(Sum sum) : sum(std::move(sum)) {}
    void first(const int64_t* row) { sum.go(row); }
    void next(int64_t from, const int64_t* row) {
        sum.go(row);
        int64_t rise = sum.limit - sum.before;
        uint32_t run = uint32_t(row[0] - from);
        if (!signal.empty()) {
            Shape& last = signal.back().shape;
            if (rise == 0 && !last.ramp() && last.t0 == sum.before) return;
            if (rise != 0 && last.ramp() && last.v0 + last.rise == sum.before && last.rise * run == rise * last.run) {
                last.rise += rise;
                last.run += run;
                return;
            }
        }
        signal.push_back({cut<uint64_t>(from, false), rise == 0 ? Shape{sum.before, 0, 1, 0} : Shape{from, sum.before, rise, run}});
    }
    void end(int64_t at) {
        if (signal.empty() || sum.limit != sum.value) signal.push_back({cut<uint64_t>(at, false), {sum.value, 0, 1, 0}});
    }

private:
    Sum sum;
};

// The blocks of signals that are no more, to be used again.
class Blocks {
public:
    Signal take(size_t room) {
        Signal out;
        if (!spare.empty()) {
            out = std::move(spare.back());
            spare.pop_back();
            out.clear();
        }
        out.reserve(room);
        return out;
    }
    void give(Signal&& old) { spare.push_back(std::move(old)); }

private:
    vector<Signal> spare;
};

// Gives the stretches between two places on which f or g is the greater, or with `least` the less; with `back` from the last one on.
template <bool least, bool back, class Give>
static void pick(const FineCut& from, const FineCut& to, const Shape& f, const Shape& g, Give give) {
    int begin = sign_at(f, g, from), slope = sign_of_slope(f, g);
    bool apart = begin * slope >= 0 || begin * sign_at(f, g, to) >= 0;
    int ahead = begin != 0 ? begin : slope;
    const Shape &first = (ahead >= 0) != least ? f : g, &second = &first == &f ? g : f;
    if (apart) return give(from, to, first);
    FineCut at = meeting(f, g);
    if (!back) give(from, at, first);
    give(at, to, second);
    if (back) give(from, at, first);
}

class Margins {
public:
    Margins(const FineDomain& in, int time_digits) : in(in), time_digits(time_digits) {}
    Signal of(const vector<Node>& nodes, vector<AtomMargin>& atoms);

private:
    const FineDomain in;
    const int time_digits;
    Blocks blocks;

    const FineCut& end_of(const Signal& p, size_t i) const { return i + 1 < p.size() ? p[i + 1].from : in.to; }
    static void turn_round(Signal& p) {
        for (Segment& s : p) s.shape = negative(s.shape);
    }
    Signal constant(int64_t value) {
        Signal out = blocks.take(1);
        out.push_back({in.from, {value, 0, 1, 0}});
        return out;
    }
    template <bool least>
    Signal joined(Signal&& p, Signal&& q) {
        Signal out = blocks.take(p.size() + q.size());
        FineCut at = in.from;
        for (size_t i = 0, k = 0; i < p.size() && k < q.size();) {
            const FineCut &i_end = end_of(p, i), &k_end = end_of(q, k);
            int o = order(i_end, k_end);
            const FineCut to = o <= 0 ? i_end : k_end;
            pick<least, false>(at, to, p[i].shape, q[k].shape, [&](const FineCut& from, const FineCut&, const Shape& s) { put(out, from, s); });
            at = to;
            i += o <= 0;
            k += o >= 0;
        }
        blocks.give(std::move(p));
        blocks.give(std::move(q));
        return out;
    }
    template <bool least>
    Signal window(Signal&& p, int64_t low, int64_t high, bool low_in, bool high_in);
    template <bool back>
    Signal reached(const Signal& p, const Signal& q);
    Signal later(Signal&& p, int64_t by);
    template <bool back>
    Signal until(Signal&& p, Signal&& q, int64_t a, int64_t b);
};

// The greatest of p, or with `least` the least, between `low` and `high` ticks ahead (below 0: behind). What may still be the greatest
// stands in a queue: the tops of segments, each less than the one before. A top lasts while the window begins before its place; then a
// segment that falls lasts on as it falls. What comes behind a top that lasts to the end is left out.
template <bool least>
class Window {
public:
    Window(const Signal& p, const FineDomain& in, int64_t low, int64_t high, bool low_in, bool high_in, Signal& out)
        : p(p), in(in), low(low), high(high), low_in(low_in), high_in(high_in), at(in.from), out(out) {}
    void run() {
        FineCut enter = entering(p[0].from);
        advance(enter, nullptr, nullptr);
        for (size_t i = 0; i < p.size() && enter < in.to; i++) {
            const FineCut &from = p[i].from, &to = i + 1 < p.size() ? p[i + 1].from : in.to;
            FineCut next = entering(to);
            if (rises(p[i].shape)) {
                Value top = value_at(p[i].shape, to);
                Shape rising = moved(p[i].shape, -high);
                advance(next, &rising, &top);
                push({top, leaving(to), i});
            } else if (p[i].shape.ramp()) {
                push({value_at(p[i].shape, from), moved(from, -low, false), i});
                advance(next, nullptr, nullptr);
            } else {
                push({p[i].shape.constant(), leaving(to), i});
                advance(next, nullptr, nullptr);
            }
            enter = next;
        }
        advance(in.to, nullptr, nullptr);
    }

private:
    struct Top {
        Value value;
        FineCut until;
        size_t segment;
    };
    const Signal& p;
    const FineDomain& in;
    const int64_t low, high;
    const bool low_in, high_in;
    FineCut at;  // up to here the answer stands
    Signal& out;
    Queue<Top> tops;

    static int ordered(int o) { return least ? -o : o; }
    static bool rises(const Shape& s) { return s.ramp() && (s.rise > 0) != least; }
    static bool falls(const Shape& s) { return s.ramp() && (s.rise > 0) == least; }
    FineCut entering(const FineCut& c) const { return moved(c, -high, c.after() || !high_in); }
    FineCut leaving(const FineCut& c) const { return moved(c, -low, c.after() && low_in); }

    void push(const Top& top) {
        while (!tops.empty() && ordered(order(tops.back().value, top.value)) <= 0) tops.pop_back();
        if (tops.empty() || tops.front().until < in.to) tops.push_back(top);
    }
    // Answers up to `to` by the queue and, where there is one, a segment on the rise that reaches `top` there.
    void advance(FineCut to, const Shape* rising, const Value* top) {
        if (in.to < to) to = in.to;
        while (at < to) {
            if (tops.empty()) {
                put(out, at, rising ? *rising : Shape{least ? infinite : -infinite, 0, 1, 0});
                at = to;
                return;
            }
            const Top& first = tops.front();
            if (at < first.until) {
                stretch(to, first.until, shape_of(first.value), rising, rising && ordered(order(*top, first.value)) <= 0);
                continue;
            }
            Shape shape = moved(p[first.segment].shape, -low);
            FineCut end = leaving(first.segment + 1 < p.size() ? p[first.segment + 1].from : in.to);
            if (falls(shape) && at < end && tops.size() > 1) {
                Shape second = shape_of(tops[1].value);
                if (ordered(sign_at(second, shape, end)) > 0) end = ordered(sign_at(second, shape, at)) >= 0 ? at : meeting(second, shape);
            }
            if (falls(shape) && at < end) stretch(to, end, shape, rising, false);
            else tops.pop_front();
        }
    }
    // Goes on up to `to` or the end of a part of the queue's answer, or further where the segment on the rise passes it.
    void stretch(const FineCut& to, const FineCut& end, const Shape& shape, const Shape* rising, bool below) {
        const FineCut& until = end < to ? end : to;
        if (rising && !below && ordered(sign_at(*rising, shape, until)) > 0) {
            if (ordered(sign_at(*rising, shape, at)) >= 0) put(out, at, *rising);
            else {
                put(out, at, shape);
                put(out, meeting(*rising, shape), *rising);
            }
            tops.clear();
            at = to;
            return;
        }
        put(out, at, shape);
        at = until;
    }
};

template <bool least>
Signal Margins::window(Signal&& p, int64_t low, int64_t high, bool low_in, bool high_in) {
    if (low == high && !(low_in && high_in)) {
        blocks.give(std::move(p));
        return constant(least ? infinite : -infinite);
    }
    Signal out = blocks.take(2 * p.size());
    Window<least>(p, in, low, high, low_in, high_in, out).run();
    blocks.give(std::move(p));
    return out;
}

// p since q, with any distance between; with `back` p until q. At each place the greatest, over the times before, of the least of q
// there and p from there on.
template <bool back>
Signal Margins::reached(const Signal& p, const Signal& q) {
    Signal out = blocks.take(p.size() + q.size());
    Value carried{-infinite, 0, 1};
    Shape last{};
    auto give = [&](const FineCut& from, const FineCut&, const Shape& s) {
        last = s;
        if (!back) put(out, from, s);
        else if (!out.empty() && same(out.back().shape, s)) out.back().from = from;
        else out.push_back({from, s});
    };
    auto grows = [](const Shape& s) { return s.ramp() && (s.rise < 0) == back; };
    auto either = [&](const FineCut& from, const FineCut& to, const Shape& f, const Shape& g) { pick<false, back>(from, to, f, g, give); };
    auto both = [&](const FineCut& from, const FineCut& to, const Shape& f, const Shape& g) { pick<true, back>(from, to, f, g, give); };
    size_t i = back ? p.size() - 1 : 0, k = back ? q.size() - 1 : 0;
    FineCut near = back ? in.to : in.from;
    for (;;) {
        const FineCut &i_end = back ? p[i].from : end_of(p, i), &k_end = back ? q[k].from : end_of(q, k);
        int o = back ? order(k_end, i_end) : order(i_end, k_end);
        const FineCut far = o <= 0 ? i_end : k_end, &from = back ? far : near, &to = back ? near : far;
        const Shape &f = p[i].shape, &g = q[k].shape;
        if (!grows(f)) {
            if (grows(g)) {
                pick<false, back>(from, to, g, shape_of(carried), [&](const FineCut& a, const FineCut& b, const Shape& s) { both(a, b, f, s); });
            } else {
                Value first = value_at(g, near);
                both(from, to, f, shape_of(order(first, carried) < 0 ? carried : first));
            }
        } else {
            Value first = value_at(f, near), kept = order(first, carried) < 0 ? first : carried;
            if (grows(g) || !g.ramp()) {
                pick<true, back>(from, to, f, g, [&](const FineCut& a, const FineCut& b, const Shape& s) { either(a, b, s, shape_of(kept)); });
            } else if (sign_at(f, g, near) >= 0) {
                Value top = value_at(g, near);
                give(from, to, shape_of(order(top, kept) < 0 ? kept : top));
            } else if (sign_at(f, g, far) <= 0) {
                give(from, to, f);
            } else {
                FineCut at = meeting(f, g);
                if (!back) give(from, at, f);
                else give(at, to, f);
                Shape top = shape_of(value_at(f, at));
                if (!back) give(at, to, top);
                else give(from, at, top);
            }
        }
        carried = value_at(last, far);
        near = far;
        if (back ? i == 0 && k == 0 && o == 0 : i + 1 == p.size() && k + 1 == q.size()) break;
        if (o <= 0) back ? i-- : i++;
        if (o >= 0) back ? k-- : k++;
    }
    if (back) std::reverse(out.begin(), out.end());
    return out;
}

// What p is at a time, told `by` ticks later (below 0: earlier), and less than all where there is nothing to tell.
Signal Margins::later(Signal&& p, int64_t by) {
    if (by == 0) return std::move(p);
    Signal out = blocks.take(p.size() + 1);
    const Shape nothing{-infinite, 0, 1, 0};
    FineCut end = moved(in.to, by, true);
    if (by > 0) put(out, in.from, nothing);
    for (size_t i = 0; i < p.size(); i++) {
        FineCut from = moved(p[i].from, by, p[i].from.after()), to = moved(end_of(p, i), by, end_of(p, i).after());
        if (from < in.to && in.from < to) put(out, from < in.from ? in.from : from, moved(p[i].shape, by));
    }
    if (end < in.to) put(out, in.from < end ? end : in.from, nothing);
    blocks.give(std::move(p));
    return out;
}

template <bool back>
Signal Margins::until(Signal&& p, Signal&& q, int64_t a, int64_t b) {
    Signal out = later(reached<back>(p, q), back ? -a : a);
    auto near = [&](int64_t low, int64_t high) { return back ? std::pair{low, high} : std::pair{-high, -low}; };
    if (b < in.length()) {
        auto [low, high] = near(a, b);
        out = joined<true>(std::move(out), window<false>(std::move(q), low, high, true, true));
    }
    if (a > 0) {
        auto [low, high] = near(0, a);
        out = joined<true>(std::move(out), window<true>(std::move(p), low, high, true, true));
    }
    blocks.give(std::move(p));
    blocks.give(std::move(q));
    return out;
}

Signal Margins::of(const vector<Node>& nodes, vector<AtomMargin>& atoms) {
    vector<Signal> stack;
    size_t atom = 0;
    for (const Node& node : nodes) {
        int64_t a = node.low.in(time_digits), b = node.bounded ? node.high.in(time_digits) : in.length() + a + 1;
        bool low = node.low_in, high = node.high_in || !node.bounded;
        auto pop = [&] { Signal p = std::move(stack.back()); stack.pop_back(); return p; };
        switch (node.kind) {
        case Kind::constant: stack.push_back(constant(node.holds ? infinite : -infinite)); break;
        case Kind::atom: stack.push_back(std::move(atoms[atom++].signal)); break;
        case Kind::negation: turn_round(stack.back()); break;
        case Kind::both: { Signal q = pop(), p = pop(); stack.push_back(joined<true>(std::move(p), std::move(q))); break; }
        case Kind::either: { Signal q = pop(), p = pop(); stack.push_back(joined<false>(std::move(p), std::move(q))); break; }
        case Kind::implies: {
            Signal q = pop(), p = pop();
            turn_round(p);
            stack.push_back(joined<false>(std::move(p), std::move(q)));
            break;
        }
        case Kind::until: { Signal q = pop(), p = pop(); stack.push_back(until<true>(std::move(p), std::move(q), a, b)); break; }
        case Kind::since: { Signal q = pop(), p = pop(); stack.push_back(until<false>(std::move(p), std::move(q), a, b)); break; }
        case Kind::eventually: stack.push_back(window<false>(pop(), a, b, low, high)); break;
        case Kind::always: stack.push_back(window<true>(pop(), a, b, low, high)); break;
        case Kind::once: stack.push_back(window<false>(pop(), -b, -a, high, low)); break;
        case Kind::historically: stack.push_back(window<true>(pop(), -b, -a, high, low)); break;
        }
    }
    return std::move(stack.back());
}

// Writes the value of a shape at a place, of which `units` make 1.
static void put_value(Text& text, const Shape& s, const FineCut& at, int64_t units) {
    text.clear();
    int64_t v;
    bool whole = plain(s, at, v);
    if (whole && (v == infinite || v == -infinite)) return text.put(v > 0 ? string_view("inf") : string_view("-inf"));
    if (whole && units == 1) return text.put(v);
    UBig den = 1;
    Big num = whole ? Big(v) : ratio_at(s, at, den);
    text.put(num, den * uint64_t(units));
}

// Writes robustness lines. A piece is written once the knot that ends it is known.
class MarginLines {
public:
    MarginLines(Output& out, Scale scale) : out(out), ticks(power(scale.time)), units(power(scale.value)) {}
    void write(const Signal& p, const FineDomain& in) {
        const Shape* before = nullptr;
        bool ended = false;
        for (size_t i = 0; i < p.size(); i++) {
            const FineCut& at = p[i].from;
            const Shape *point = at.after() ? before : &p[i].shape, *after = &p[i].shape;
            bool alone = !at.after() && order_of_times(at, i + 1 < p.size() ? p[i + 1].from : in.to) == 0;
            if (alone) {
                ended = i + 1 == p.size();
                after = ended ? nullptr : &p[++i].shape;
            }
            bool through = alone && before && after && same(*before, *after) && sign_at(*before, *point, at) == 0;
            if (!through) knot(at, before, *point, after);
            before = after;
        }
        if (!ended) knot(in.to, before, *before, nullptr);
    }

private:
    Output& out;
    int64_t ticks, units;
    Text texts[5];
    Text *from = &texts[0], *from_value = &texts[1], *to = &texts[2], *to_value = &texts[3], *value = &texts[4];

    void knot(const FineCut& at, const Shape* before, const Shape& point, const Shape* after) {
        put_time(*to, at, ticks);
        put_value(*value, point, at, units);
        if (before) {
            bool reached = before == &point || sign_at(*before, point, at) == 0;
            if (!reached) put_value(*to_value, *before, at, units);
            out.line('(', *from, ',', *to, ") ", *from_value, " -> ", reached ? *value : *to_value, '\n');
        }
        out.line('[', *to, "] ", *value, '\n');
        if (!after) return;
        if (after == &point || sign_at(*after, point, at) == 0) std::swap(from_value, value);
        else put_value(*from_value, *after, at, units);
        std::swap(from, to);
    }
};

static void robust(const vector<Node>& nodes, Reader& reader, Scale scale, Output& out) {
    vector<AtomMargin> atoms;
    for (const Node& node : nodes)
        if (node.kind == Kind::atom) atoms.emplace_back(Sum(node, reader.columns, scale.value));
    FineDomain in = read_rows<uint64_t>(reader, [&](int64_t last, const int64_t* row, bool first) {
        for (AtomMargin& atom : atoms) first ? atom.first(row) : atom.next(last, row);
    });
    for (AtomMargin& atom : atoms) atom.end(in.to.whole());
    MarginLines(out, scale).write(Margins(in, scale.time).of(nodes, atoms), in);
}
