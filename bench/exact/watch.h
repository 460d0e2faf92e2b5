// `watch`: verdicts as rows come. Each node tells its turns up to its front, which follows the time of the last row; the node above takes
// them from there.
#pragma once
#include <algorithm>
#include <vector>

#include "formula.h"
#include "place.h"
#include "queue.h"
#include "text.h"
#include "trace.h"
#include "truth.h"

// A node as rows come. Past its front the queue may hold turns that are still to come, and that may still be taken back.
class Stage {
public:
    Queue<Cut> turns;
    int64_t front = 0;  // all times up to here are told; it may lie before the start

    Stage(const Node& node, int time_digits)
        : node(node), low(node.low.in(time_digits)), high(node.high.in(time_digits)), low_in(node.low_in),
          high_in(node.high_in || !node.bounded), every(node.kind == Kind::always || node.kind == Kind::historically) {}
    void begin(int64_t time) {
        start = cut(time, false);
        at = cut(time - 1, true);
        told = node.kind == Kind::negation || node.kind == Kind::implies || every || node.holds;
        if (told) turns.push_back(start);
    }
    // Goes on after a row at `now`, or with `ended` after the last row.
    void go(vector<Stage>& stages, int64_t now, bool ended) {
        Stage* left = node.left < 0 ? nullptr : &stages[size_t(node.left)];
        Stage* right = node.right < 0 ? nullptr : &stages[size_t(node.right)];
        switch (node.kind) {
        case Kind::constant:
        case Kind::atom: front = now; break;
        case Kind::negation: negate(*left); break;
        case Kind::both:
        case Kind::either:
        case Kind::implies: connect(*left, *right); break;
        case Kind::eventually:
        case Kind::always:
            window(*left, -high, -low, high_in, low_in, now, ended);
            front = ended ? now : left->front - high;
            break;
        case Kind::once:
        case Kind::historically:
            window(*left, low, high, low_in, high_in, now, ended);
            front = std::min(left->front + low, now);
            break;
        case Kind::until: until(*left, *right, now, ended); break;
        case Kind::since: since(*left, *right, now); break;
        }
    }
    // Whether a turn waits that lies before the end of a time.
    bool waits(int64_t time) const { return !turns.empty() && turns.front() < cut(time, true); }

private:
    const Node& node;
    int64_t low, high;
    bool low_in, high_in, every;
    Cut start{}, at{};
    bool begun = false, told = false;  // told: the truth after the last turn
    bool p = false, q = false;         // the truth of the inputs there
    Cut run{}, fall{};                 // the start of the last run of p, and the end of the last run of q
    bool fallen = false;

    void turn(const Cut& place) {
        if (!turns.empty() && order(turns.back(), place) == 0) turns.pop_back();
        else turns.push_back(place);
    }
    // A stretch begins, or goes on where the one before reaches up to its begin.
    void open(const Cut& place, const Cut& least) {
        const Cut& from = std::max(place, least);
        if (!turns.empty() && !(turns.back() < from)) turns.pop_back();
        else turns.push_back(from);
    }
    // The stretch ends, or is none where it would end at its begin or before.
    void close(const Cut& place) { open(place, start); }

    void negate(Stage& of) {
        front = of.front;
        for (; of.waits(front); of.turns.pop_front()) turn(of.turns.front());
    }
    // Takes the turns of both inputs up to a time, in order; `take` is called at each place once p and q have turned there.
    template <class Take>
    void merge(Stage& left, Stage& right, int64_t time, Take take) {
        for (;;) {
            bool i = left.waits(time), k = right.waits(time);
            if (!i && !k) return;
            int o = !i ? 1 : !k ? -1 : order(left.turns.front(), right.turns.front());
            Cut place = o <= 0 ? left.turns.front() : right.turns.front();
            if (o <= 0) { p = !p; left.turns.pop_front(); }
            if (o >= 0) { q = !q; right.turns.pop_front(); }
            take(place);
        }
    }
    void connect(Stage& left, Stage& right) {
        front = std::min(left.front, right.front);
        merge(left, right, front, [&](const Cut& place) {
            bool now = node.kind == Kind::both ? p && q : node.kind == Kind::either ? p || q : !p || q;
            if (now != told) turn(place);
            told = now;
        });
    }
    // Each run of the input, or for `every` of its negation, is in sight from its begin moved by `first` to its end moved by `last`.
    void window(Stage& of, int64_t first, int64_t last, bool first_in, bool last_in, int64_t now, bool ended) {
        if (node.bounded && low == high && !(low_in && high_in)) return;
        auto rise = [&](const Cut& place) {
            if (node.bounded || !fallen) open(moved(place, first, place.after() || !first_in), start);
        };
        auto drop = [&](const Cut& place) {
            if (node.bounded) close(moved(place, last, place.after() && last_in));
            fallen = true;
        };
        if (!begun && of.front >= start.whole()) {
            begun = true;
            p = every;
            if (!of.turns.empty() && order(of.turns.front(), start) == 0) {
                p = !p;
                of.turns.pop_front();
            }
            if (p) rise(start);
        }
        for (; of.waits(of.front); of.turns.pop_front()) {
            p = !p;
            p ? rise(of.turns.front()) : drop(of.turns.front());
        }
        if (ended && p) drop(cut(now, true));
    }
    void until(Stage& left, Stage& right, int64_t now, bool ended) {
        bool both = p && q, was = p;
        int64_t known = std::min(left.front, right.front);
        merge(left, right, known, [&](const Cut& place) {
            if (p && !was) run = place;
            was = p;
            if (both == (p && q)) return;
            both = !both;
            if (both) open(moved(place, -high, place.after()), run);
            else close(moved(place, -low, place.after()));
        });
        if (ended && both) close(moved(cut(now, true), -low, true));
        front = ended ? now : known - high;
    }
    // Where p holds, and q held in the window and not before the run of p. Of the runs of q that have ended by the window's near end
    // only the last one matters.
    void since(Stage& left, Stage& right, int64_t now) {
        front = std::min({left.front, right.front + low, now});
        const Cut end = cut(front, true);
        for (;;) {
            Cut place = end, p_turn = end, q_turn = end;
            if (!left.turns.empty()) place = p_turn = std::min(end, left.turns.front());
            if (!right.turns.empty()) q_turn = moved(right.turns.front(), low, right.turns.front().after());
            Cut sight = moved(run, low, run.after()), lost = moved(fall, high, fall.after());
            if (q_turn < place) place = q_turn;
            if (p && at < sight && sight < place) place = sight;
            if (fallen && node.bounded && at < lost && lost < place) place = lost;
            if (!(place < end)) return;
            at = place;
            if (order(p_turn, at) == 0) {
                p = !p;
                if (p) run = at;
                left.turns.pop_front();
                sight = moved(run, low, run.after());
            }
            if (order(q_turn, at) == 0) {
                q = !q;
                if (!q) { fall = right.turns.front(); fallen = true; lost = moved(fall, high, fall.after()); }
                right.turns.pop_front();
            }
            bool now_holds = p && ((q && !(at < sight)) || (fallen && run < fall && (!node.bounded || at < lost)));
            if (now_holds != told) turns.push_back(at);
            told = now_holds;
        }
    }
};

// Writes the verdicts up to a time that are not written yet.
class Answers {
public:
    bool start = false;

    Answers(Output& out, int64_t ticks) : verdicts(out, ticks) {}
    void begin(int64_t time) {
        verdicts.begin(cut(time, false));
        told = time - 1;
    }
    void up_to(int64_t time, Stage& root) {
        if (time <= told) return;
        for (; root.waits(time); root.turns.pop_front()) {
            line(root.turns.front());
            holds = !holds;
        }
        line(cut(time, true));
        told = time;
    }

private:
    Verdicts verdicts;
    int64_t told = 0;
    bool holds = false, any = false;

    void line(const Cut& to) {
        if (!(verdicts.at() < to)) return;
        verdicts.line(to, holds);
        if (!any) start = holds;
        any = true;
    }
};

static bool watch(const vector<Node>& nodes, Reader& reader, Scale scale, Output& out) {
    vector<Stage> stages;
    for (const Node& node : nodes) stages.emplace_back(node, scale.time);
    vector<AtomTruth<Queue<Cut>>> atoms;
    for (size_t k = 0; k < nodes.size(); k++)
        if (nodes[k].kind == Kind::atom) atoms.emplace_back(Sum(nodes[k], reader.columns, scale.value), stages[k].turns);
    Answers answers(out, power(scale.time));
    auto go = [&](int64_t now, bool ended) {
        for (Stage& stage : stages) stage.go(stages, now, ended);
        answers.up_to(stages.back().front, stages.back());
    };
    Domain in = read_rows<uint32_t>(reader, [&](int64_t last, const int64_t* row, bool first) {
        if (first) {
            answers.begin(row[0]);
            for (Stage& stage : stages) stage.begin(row[0]);
        }
        for (auto& atom : atoms) first ? atom.first(row) : atom.next(last, row);
        go(row[0], false);
    });
    go(in.to.whole(), true);
    put_start(out, answers.start);
    return answers.start;
}
