// Places in time: just before a time, or just after it.
#pragma once
#include <cstdint>
#include <cstdio>
#include <cstdlib>
#include <type_traits>

using std::int64_t;
using std::uint32_t;
using std::uint64_t;
using Big = __int128;
using UBig = unsigned __int128;

[[noreturn]] static void refuse(const char* why, int status = 2) {
    std::fprintf(stderr, "%s\n", why);
    std::exit(status);
}

// The time is whole + rest/den ticks, in no need of lowest terms; the lowest bit of `twice` says "after". A Word has room for rest and den.
template <class Word>
struct CutOf {
    int64_t twice;
    Word rest, den;
    int64_t whole() const { return twice >> 1; }
    bool after() const { return twice & 1; }
};

using Cut = CutOf<uint32_t>;      // where a truth may turn: denominators are at most 2^31
using FineCut = CutOf<uint64_t>;  // where a margin may bend: denominators are below 2^60

template <class Word = uint32_t>
static CutOf<Word> cut(int64_t whole, bool after) { return {2 * whole + after, 0, 1}; }

// The order of two fractions below 1.
template <class Word>
static int order(Word rest, Word den, Word other_rest, Word other_den) {
    using Twice = std::conditional_t<sizeof(Word) == 4, uint64_t, UBig>;
    Twice x = Twice(rest) * other_den, y = Twice(other_rest) * den;
    return x < y ? -1 : x > y;
}

// The order of the times alone.
template <class Word>
static int order_of_times(const CutOf<Word>& a, const CutOf<Word>& b) {
    if (a.whole() != b.whole()) return a.whole() < b.whole() ? -1 : 1;
    if (a.rest == b.rest && (a.rest == 0 || a.den == b.den)) return 0;
    return order(a.rest, a.den, b.rest, b.den);
}
template <class Word>
inline int order(const CutOf<Word>& a, const CutOf<Word>& b) {
    if ((a.rest | b.rest) != 0 && a.whole() == b.whole())
        if (int o = order(a.rest, a.den, b.rest, b.den)) return o;
    return a.twice < b.twice ? -1 : a.twice > b.twice;
}
template <class Word>
static bool operator<(const CutOf<Word>& a, const CutOf<Word>& b) { return order(a, b) < 0; }

template <class Word>
static CutOf<Word> moved(const CutOf<Word>& c, int64_t by, bool after) { return {2 * (c.whole() + by) + after, c.rest, c.den}; }

template <class Word>
struct DomainOf {
    CutOf<Word> from, to;
    int64_t length() const { return to.whole() - from.whole(); }
};
using Domain = DomainOf<uint32_t>;
using FineDomain = DomainOf<uint64_t>;
