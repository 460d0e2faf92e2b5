// What is written: numbers as fractions in lowest terms, and bytes in large pieces.
#pragma once
#include <unistd.h>

#include <array>
#include <charconv>
#include <cstring>
#include <numeric>
#include <string_view>

#include "place.h"

using std::string_view;

static UBig divided(UBig a, UBig b) { return (a | b) >> 64 ? a / b : uint64_t(a) / uint64_t(b); }

static UBig gcd(UBig a, UBig b) {
    while ((a | b) >> 64) {
        if (b == 0) return a;
        UBig rest = a % b;
        a = b;
        b = rest;
    }
    return std::gcd(uint64_t(a), uint64_t(b));
}

// The text of one number.
class Text {
public:
    static constexpr size_t most = 104;
    std::array<char, most> bytes;
    size_t size = 0;

    void clear() { size = 0; }
    void put(string_view text) {
        std::memcpy(bytes.data() + size, text.data(), text.size());
        size += text.size();
    }
    void put(char c) { bytes[size++] = c; }
    void put(int64_t n) {
        if (n < 0) put('-');
        put(uint64_t(n < 0 ? -n : n));
    }
    void put(uint64_t n) { size = size_t(std::to_chars(bytes.data() + size, bytes.data() + bytes.size(), n).ptr - bytes.data()); }
    void put(UBig n) {
        constexpr uint64_t tens = 10'000'000'000'000'000'000u;
        if (n < tens) { put(uint64_t(n)); return; }
        put(n / tens);
        size += 19;
        uint64_t low = uint64_t(n % tens);
        for (size_t at = size; at > size - 19; low /= 10) bytes[--at] = char('0' + low % 10);
    }
    // num / den in lowest terms.
    void put(Big num, UBig den) {
        if (num < 0) put('-');
        UBig over = num < 0 ? -UBig(num) : UBig(num), common = den == 1 ? 1 : gcd(over, den);
        if (common != 1) { over = divided(over, common); den = divided(den, common); }
        put(over);
        if (den == 1) return;
        put('/');
        put(den);
    }
};

// Bytes on their way out, written in large pieces.
class Output {
public:
    ~Output() { flush(); }
    // Puts characters, texts and short literals one behind the other.
    template <class... Parts>
    void line(const Parts&... parts) {
        if (block.size() - used < sizeof...(parts) * Text::most) flush();
        char* end = block.data() + used;
        ((end = put(end, parts)), ...);
        used = size_t(end - block.data());
    }
    void flush() {
        for (size_t from = 0; from < used;) {
            ssize_t n = write(1, block.data() + from, used - from);
            if (n <= 0) { used = 0; refuse("write fault", 6); }
            from += size_t(n);
        }
        used = 0;
    }

private:
    std::array<char, 65536> block;
    size_t used = 0;

    static char* put(char* end, char c) {
        *end = c;
        return end + 1;
    }
    template <size_t size>
    static char* put(char* end, const char (&text)[size]) {
        std::memcpy(end, text, size - 1);
        return end + size - 1;
    }
    static char* put(char* end, const Text& text) {
        std::memcpy(end, text.bytes.data(), 24);
        if (text.size > 24) std::memcpy(end, text.bytes.data(), Text::most);
        return end + text.size;
    }
};

// Writes the time of a place, of which `ticks` make a unit.
template <class Word>
static void put_time(Text& text, const CutOf<Word>& c, int64_t ticks) {
    text.clear();
    if (c.rest == 0 && ticks == 1) text.put(uint64_t(c.whole()));
    else text.put(Big(c.whole()) * c.den + c.rest, UBig(c.den) * uint64_t(ticks));
}
