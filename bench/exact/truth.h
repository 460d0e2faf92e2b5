// `check`: the truth of a formula over a whole trace.
#pragma once
#include <algorithm>
#include <vector>

#include "formula.h"
#include "place.h"
#include "text.h"
#include "trace.h"

// The places at which a truth turns, from false before the first.
using Turns = vector<Cut>;

// Puts an interval behind the others, of which the last may reach into it.
static void put(Turns& out, const Domain& in, Cut from, Cut to) {
    if (from < in.from) from = in.from;
    if (in.to < to) to = in.to;
    if (!(from < to)) return;
    if (!out.empty() && !(out.back() < from)) {
        if (out.back() < to) out.back() = to;
        return;
    }
    out.push_back(from);
    out.push_back(to);
}

static Turns negation(const Turns& p, const Domain& in) {
    Turns out;
    out.reserve(p.size() + 2);
    size_t k = 0;
    if (!p.empty() && order(p[0], in.from) == 0) k = 1;
    else out.push_back(in.from);
    for (; k < p.size(); k++) out.push_back(p[k]);
    if (!out.empty() && order(out.back(), in.to) == 0) out.pop_back();
    else out.push_back(in.to);
    return out;
}

// Both, or either: the turns of the two, in order.
static Turns joined(const Turns& p, const Turns& q, bool both) {
    Turns out;
    out.reserve(p.size() + q.size());
    size_t i = 0, k = 0;
    bool was = false;
    while (i < p.size() || k < q.size()) {
        int o = i == p.size() ? 1 : k == q.size() ? -1 : order(p[i], q[k]);
        const Cut& at = o <= 0 ? p[i] : q[k];
        if (o <= 0) i++;
        if (o >= 0) k++;
        bool now = both ? (i & 1) && (k & 1) : (i & 1) || (k & 1);
        if (now != was) out.push_back(at);
        was = now;
    }
    return out;
}

// The times from which some time of p lies between `low` and `high` ticks ahead (below 0: behind).
static Turns some(const Turns& p, const Domain& in, int64_t low, int64_t high, bool low_in, bool high_in) {
    Turns out;
    if (low == high && !(low_in && high_in)) return out;
    out.reserve(p.size());
    for (size_t i = 0; i < p.size(); i += 2) {
        Cut from = moved(p[i], -high, p[i].after() || !high_in), to = moved(p[i + 1], -low, p[i + 1].after() && low_in);
        put(out, in, from, to);
    }
    return out;
}

// p until q, and with `back` p since q: both lie in one run of p.
static Turns until(const Turns& p, const Turns& q, const Domain& in, int64_t low, int64_t high, bool back) {
    Turns out;
    size_t k = 0;
    for (size_t i = 0; i < p.size(); i += 2) {
        Domain run{p[i], p[i + 1]};
        while (k < q.size() && !(run.from < q[k + 1])) k += 2;
        for (; k < q.size() && q[k] < run.to; k += 2) {
            Cut from = q[k] < run.from ? run.from : q[k], to = run.to < q[k + 1] ? run.to : q[k + 1];
            Cut begin = back ? moved(from, low, from.after()) : moved(from, -high, from.after());
            Cut end = back ? moved(to, high, to.after()) : moved(to, -low, to.after());
            put(out, {std::max(run.from, in.from), std::min(run.to, in.to)}, begin, end);
            if (run.to < q[k + 1]) break;
        }
    }
    return out;
}

// Puts the turns of one atom behind others as rows come.
template <class Into>
class AtomTruth {
public:
    bool now = false;

    AtomTruth(Sum sum, Into& turns) : sum(std::move(sum)), turns(turns) {}
    void first(const int64_t* row) {
        sum.go(row);
        turn(sum.holds(sum.value), cut(row[0], false));
    }
    void next(int64_t from, const int64_t* row) {
        sum.go(row);
        gap(sum.before, sum.limit, from, row[0]);
        turn(sum.holds(sum.value), cut(row[0], false));
    }

private:
    Sum sum;
    Into& turns;

    void turn(bool holds, const Cut& at) {
        if (holds != now) turns.push_back(at);
        now = holds;
    }
    // The open gap between two rows, on which the sum goes from e to f.
    void gap(int64_t e, int64_t f, int64_t from, int64_t to) {
        bool begins = e != 0 ? e > 0 : f != 0 ? f > 0 : sum.holds(0), ends = f != 0 ? f > 0 : begins;
        turn(begins, cut(from, true));
        if (begins != ends) {
            uint64_t before = uint64_t(e < 0 ? -e : e), rise = before + uint64_t(f < 0 ? -f : f);
            UBig product = UBig(before) * uint64_t(to - from);
            uint64_t whole, rest;
            if (product >> 64) { whole = uint64_t(product / rise); rest = uint64_t(product % rise); }
            else { whole = uint64_t(product) / rise; rest = uint64_t(product) % rise; }
            Cut at{2 * (from + int64_t(whole)), uint32_t(rest), uint32_t(rise)};
            turn(sum.holds(0), at);
            at.twice++;
            turn(ends, at);
        }
    }
};

static Turns evaluate(const vector<Node>& nodes, vector<Turns>& atoms, const Domain& in, int time_digits) {
    vector<Turns> stack;
    size_t atom = 0;
    for (const Node& node : nodes) {
        int64_t a = node.low.in(time_digits), b = node.bounded ? node.high.in(time_digits) : in.length() + 1;
        bool low = node.low_in, high = node.high_in || !node.bounded;
        auto pop = [&] { Turns p = std::move(stack.back()); stack.pop_back(); return p; };
        auto all = [&](int64_t l, int64_t h, bool l_in, bool h_in) {
            return negation(some(negation(pop(), in), in, l, h, l_in, h_in), in);
        };
        switch (node.kind) {
        case Kind::constant: stack.push_back(node.holds ? Turns{in.from, in.to} : Turns{}); break;
        case Kind::atom: stack.push_back(std::move(atoms[atom++])); break;
        case Kind::negation: stack.push_back(negation(pop(), in)); break;
        case Kind::both: { Turns q = pop(), p = pop(); stack.push_back(joined(p, q, true)); break; }
        case Kind::either: { Turns q = pop(), p = pop(); stack.push_back(joined(p, q, false)); break; }
        case Kind::implies: { Turns q = pop(), p = pop(); stack.push_back(joined(negation(p, in), q, false)); break; }
        case Kind::until: { Turns q = pop(), p = pop(); stack.push_back(until(p, q, in, a, b, false)); break; }
        case Kind::since: { Turns q = pop(), p = pop(); stack.push_back(until(p, q, in, a, b, true)); break; }
        case Kind::eventually: stack.push_back(some(pop(), in, a, b, low, high)); break;
        case Kind::always: stack.push_back(all(a, b, low, high)); break;
        case Kind::once: stack.push_back(some(pop(), in, -b, -a, high, low)); break;
        case Kind::historically: stack.push_back(all(-b, -a, high, low)); break;
        }
    }
    return std::move(stack.back());
}

// Writes verdict lines; the end of one is the begin of the next.
class Verdicts {
public:
    Verdicts(Output& out, int64_t ticks) : out(out), ticks(ticks) {}
    void begin(const Cut& at) {
        from = at;
        put_time(*begins, at, ticks);
    }
    void line(const Cut& to, bool holds) {
        put_time(*ends, to, ticks);
        char left = from.after() ? '(' : '[', right = to.after() ? ']' : ')';
        if (holds) out.line(left, *begins, ',', *ends, right, " true\n");
        else out.line(left, *begins, ',', *ends, right, " false\n");
        std::swap(begins, ends);
        from = to;
    }
    const Cut& at() const { return from; }

private:
    Output& out;
    int64_t ticks;
    Cut from{};
    Text texts[2];
    Text *begins = &texts[0], *ends = &texts[1];
};

static void put_start(Output& out, bool holds) {
    if (holds) out.line("start true\n");
    else out.line("start false\n");
}

static bool check(const vector<Node>& nodes, Reader& reader, Scale scale, Output& out) {
    vector<Turns> turns(nodes.size());
    vector<AtomTruth<Turns>> atoms;
    for (const Node& node : nodes)
        if (node.kind == Kind::atom) atoms.emplace_back(Sum(node, reader.columns, scale.value), turns[atoms.size()]);
    Domain in = read_rows<uint32_t>(reader, [&](int64_t last, const int64_t* row, bool first) {
        for (auto& atom : atoms) first ? atom.first(row) : atom.next(last, row);
    });
    for (size_t k = 0; k < atoms.size(); k++)
        if (atoms[k].now) turns[k].push_back(in.to);
    Turns truth = evaluate(nodes, turns, in, scale.time);
    bool start = !truth.empty() && order(truth[0], in.from) == 0, holds = start;
    Verdicts verdicts(out, power(scale.time));
    verdicts.begin(in.from);
    for (const Cut& c : truth)
        if (in.from < c && c < in.to) {
            verdicts.line(c, holds);
            holds = !holds;
        }
    verdicts.line(in.to, holds);
    put_start(out, start);
    return start;
}
