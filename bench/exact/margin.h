// Margins: fractions, ramps, and where they meet.
#pragma once
#include <vector>

#include "place.h"
#include "text.h"

// whole + rest/den, in no need of lowest terms, with a denominator below 2^60. The infinite ones are whole numbers beyond all margins.
struct Value {
    int64_t whole;
    uint64_t rest, den;
};
static constexpr int64_t infinite = int64_t(1) << 62;

static int sign(Big n) { return (n > 0) - (n < 0); }

static int order(const Value& a, const Value& b) {
    if (a.whole != b.whole) return a.whole < b.whole ? -1 : 1;
    return (a.rest | b.rest) == 0 ? 0 : order(a.rest, a.den, b.rest, b.den);
}

static Value negative(const Value& v) {
    if (v.rest == 0) return {-v.whole, 0, 1};
    return {-v.whole - 1, v.den - v.rest, v.den};
}

// num / den rounded down, and what is left over.
static Big floor_of(Big num, UBig den, UBig& rest) {
    if (!(den >> 63) && num == int64_t(num)) {
        int64_t n = int64_t(num), d = int64_t(den), whole = n / d, left = n % d;
        if (left < 0) { whole--; left += d; }
        rest = UBig(left);
        return whole;
    }
    bool below = num < 0;
    UBig size = below ? -UBig(num) : UBig(num), whole = size / den;
    rest = size - whole * den;
    if (!below) return Big(whole);
    if (rest == 0) return -Big(whole);
    rest = den - rest;
    return -Big(whole) - 1;
}

// A number with a denominator below 2^60, as a Value or as a time; status 8 where there is none.
static Value value_of(Big num, UBig den) {
    UBig rest;
    int64_t whole = int64_t(floor_of(num, den, rest));
    if (rest == 0) return {whole, 0, 1};
    if (den >> 60) {
        UBig common = gcd(rest, den);
        rest = divided(rest, common);
        den = divided(den, common);
        if (den >> 60) refuse("wide", 8);
    }
    return {whole, uint64_t(rest), uint64_t(den)};
}

// With a run above 0 the ramp v0 + rise * (t - t0) / run, whose rise is not 0. Else the constant t0 + v0/rise.
struct Shape {
    int64_t t0, v0, rise;
    uint32_t run;
    bool ramp() const { return run != 0; }
    Value constant() const { return {t0, uint64_t(v0), uint64_t(rise)}; }
};

static Shape shape_of(const Value& v) { return {v.whole, int64_t(v.rest), int64_t(v.den), 0}; }

static Shape moved(Shape s, int64_t by) {
    if (s.ramp()) s.t0 += by;
    return s;
}
static Shape negative(const Shape& s) { return s.ramp() ? Shape{s.t0, -s.v0, -s.rise, s.run} : shape_of(negative(s.constant())); }

// The value at a whole time, times the run.
static Big over_run(const Shape& s, int64_t t) { return Big(s.v0) * s.run + Big(s.rise) * (t - s.t0); }

// The value at the time of a place as num/den.
static Big ratio_at(const Shape& s, const FineCut& c, UBig& den) {
    if (!s.ramp()) {
        den = uint64_t(s.rise);
        return Big(s.t0) * s.rise + s.v0;
    }
    if (c.rest == 0) {
        den = s.run;
        return over_run(s, c.whole());
    }
    den = UBig(c.den) * s.run;
    return over_run(s, c.whole()) * Big(c.den) + Big(s.rise) * Big(c.rest);
}

// Whether the value at the time of a place is seen to be whole at once, and that value.
static bool plain(const Shape& s, const FineCut& c, int64_t& value) {
    if (!s.ramp()) {
        value = s.t0;
        return s.v0 == 0;
    }
    int64_t ago = c.whole() - s.t0;
    value = ago == 0 ? s.v0 : s.v0 + s.rise;
    return c.rest == 0 && (ago == 0 || ago == s.run);
}

static Value value_at(const Shape& s, const FineCut& c) {
    if (!s.ramp()) return s.constant();
    if (int64_t v; plain(s, c, v)) return {v, 0, 1};
    UBig den;
    Big num = ratio_at(s, c, den);
    return value_of(num, den);
}

static int sign_ramp_constant(const Shape& f, const Shape& c, const FineCut& at) {
    Big n = over_run(f, at.whole()) - Big(c.t0) * f.run;
    if (at.rest == 0 && c.v0 == 0) return sign(n);
    // What is left of the ramp and of the constant is below 2^32.
    if (n >> 33 != 0 && n >> 33 != -1) return sign(n);
    UBig den = UBig(at.den) * uint64_t(c.rise);
    if (at.rest == 0 || c.v0 == 0 || den >> 90 == 0)
        return sign(n * Big(den) + Big(f.rise) * Big(at.rest) * c.rise - Big(f.run) * c.v0 * Big(at.den));
    UBig x, y;
    n += floor_of(Big(f.rise) * Big(at.rest), at.den, x) - floor_of(Big(c.v0) * f.run, UBig(c.rise), y);
    return n != 0 ? sign(n) : order(uint64_t(x), at.den, uint64_t(y), uint64_t(c.rise));
}

// How much faster f rises than g, times both runs, or times the run of both.
static Big slope_over(const Shape& f, const Shape& g) {
    return f.run == g.run ? Big(f.rise - g.rise) : Big(f.rise) * g.run - Big(g.rise) * f.run;
}

// The sign of the slope of f - g.
static int sign_of_slope(const Shape& f, const Shape& g) {
    int64_t rise = f.ramp() ? f.rise : 0, other = g.ramp() ? g.rise : 0;
    if (f.ramp() && g.ramp() && f.run != g.run) { rise *= g.run; other *= f.run; }
    return (rise > other) - (rise < other);
}

static int sign_ramps(const Shape& f, const Shape& g, const FineCut& at) {
    Big n = over_run(f, at.whole()), m = over_run(g, at.whole());
    n = f.run == g.run ? n - m : n * g.run - m * f.run;
    if (at.rest == 0) return sign(n);
    Big slope = slope_over(f, g), most = slope < 0 ? -slope : slope;
    return n >= most || -n >= most ? sign(n) : sign(n * Big(at.den) + slope * Big(at.rest));
}

// The sign of f - g at the time of a place.
static int sign_at(const Shape& f, const Shape& g, const FineCut& at) {
    if (!f.ramp() && !g.ramp()) return order(f.constant(), g.constant());
    if (int64_t v, w; plain(f, at, v) && plain(g, at, w)) return (v > w) - (v < w);
    if (!g.ramp()) return sign_ramp_constant(f, g, at);
    if (!f.ramp()) return -sign_ramp_constant(g, f, at);
    return sign_ramps(f, g, at);
}

// Just before the one time at which f and g meet.
static FineCut meeting(const Shape& f, const Shape& g) {
    if (!f.ramp()) return meeting(g, f);
    Big num, den;
    if (g.ramp()) {
        den = slope_over(f, g);
        num = Big(g.rise) * (f.t0 - g.t0) - Big(f.v0 - g.v0) * g.run;
        if (f.run != g.run) num *= f.run;
    } else {
        den = Big(f.rise) * g.rise;
        num = (Big(g.t0 - f.v0) * g.rise + g.v0) * f.run;
    }
    if (den < 0) { num = -num; den = -den; }
    Value time = value_of(num, UBig(den));
    return {2 * (f.t0 + time.whole), time.rest, time.den};
}

// Whether f and g are one function.
static bool same(const Shape& f, const Shape& g) {
    if (!f.ramp() || !g.ramp()) return f.run == g.run && order(f.constant(), g.constant()) == 0;
    if (f.t0 == g.t0 && f.v0 == g.v0 && f.rise == g.rise && f.run == g.run) return true;
    return f.rise * g.run == g.rise * f.run && Big(f.v0 - g.v0) * g.run == Big(g.rise) * (f.t0 - g.t0);
}

// ---- signals

// From its place up to the next one's place, or the end of the domain, a signal has this shape.
struct Segment {
    FineCut from;
    Shape shape;
};

using Signal = vector<Segment>;

static void put(Signal& out, const FineCut& from, const Shape& shape) {
    if (out.empty() || !same(out.back().shape, shape)) out.push_back({from, shape});
}
