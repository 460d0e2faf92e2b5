// Traces: the header, then row by row what it says in ticks.
#pragma once
#include <unistd.h>

#include <algorithm>
#include <cstring>
#include <string>
#include <vector>

#include "formula.h"
#include "place.h"
#include "text.h"

struct Column {
    string name;
    bool step = false;
    int digits = 0;
};

struct Scale {
    int time = 0, value = 0;
};

static int64_t power(int digits) {
    int64_t tens = 1;
    for (; digits > 0; digits--) tens *= 10;
    return tens;
}

// Reads whole lines out of large blocks. What `answers` holds is written before each read that may have to wait.
class Reader {
public:
    vector<Column> columns;
    int time_digits = 0;

    explicit Reader(Output* answers = nullptr) : answers(answers), block(65536 + past) { at = whole = end = block.data(); }

    void header() {
        string line;
        do {
            if (!fill()) refuse("no header");
            const char* to = static_cast<const char*>(std::memchr(at, '\n', size_t(end - at)));
            line.assign(at, to);
            at = to + 1;
        } while (trim(line).empty());
        size_t from = 0;
        for (bool first = true; from <= line.size(); first = false) {
            size_t to = std::min(line.find(',', from), line.size());
            Column column = field(line.substr(from, to - from));
            if (first) time_digits = column.digits;
            else columns.push_back(column);
            from = to + 1;
        }
    }
    // From here on rows have numbers in ticks of the scale.
    void begin(Scale to) {
        fields.assign(columns.size() + 1, {to.value, power(to.value)});
        fields[0] = {to.time, power(to.time)};
    }
    // The next row into `row`, its time first; false at the end.
    bool row(int64_t* row) {
        int64_t* values = row;
        do {
            if (!fill()) return false;
        } while (blank());
        const char* p = at;
        for (const Field& field : fields) {
            if (row != values && *p++ != ',') refuse("wrong count");
            if (*p <= ' ') p = skip(p);
            bool minus = *p == '-';
            if (minus || *p == '+') p++;
            int64_t v;
            p = whole_number(p, v);
            if (*p == '.') p = decimals(p + 1, v, field.digits);
            else v *= field.tens;
            *values++ = minus ? -v : v;
            if (*p <= ' ') p = skip(p);
        }
        if (*p == '\r') p++;
        if (*p != '\n') refuse("wrong count");
        at = p + 1;
        return true;
    }

private:
    struct Field {
        int digits;
        int64_t tens;
    };
    static constexpr size_t past = 16;  // bytes that may be looked at behind the last line
    Output* answers;
    vector<char> block;
    const char *at, *whole, *end;  // the bytes from `at` to `whole` are whole lines
    bool ended = false;
    vector<Field> fields;

    static bool digit(char c) { return static_cast<unsigned char>(c - '0') < 10; }
    static const char* skip(const char* p) {
        while (*p == ' ' || *p == '\t') p++;
        return p;
    }
    // Digits, of which the first eight are read at once.
    static const char* whole_number(const char* p, int64_t& v) {
        uint64_t eight;
        std::memcpy(&eight, p, 8);
        eight -= 0x3030303030303030;
        uint64_t others = (eight | (eight + 0x7676767676767676)) & 0x8080808080808080;
        int bits = others == 0 ? 64 : __builtin_ctzll(others) & ~7;
        if (bits == 0) refuse("bad number");
        eight <<= 64 - bits;
        eight = 10 * eight + (eight >> 8);
        constexpr uint64_t pairs = 0x000000FF000000FF, high = 100 + (uint64_t(1000000) << 32), low = 1 + (uint64_t(10000) << 32);
        v = int64_t(((eight & pairs) * high + ((eight >> 16) & pairs) * low) >> 32);
        p += bits / 8;
        if (bits == 64)
            while (digit(*p)) v = 10 * v + (*p++ - '0');
        return p;
    }
    static const char* decimals(const char* p, int64_t& v, int digits) {
        if (!digit(*p)) refuse("bad number");
        for (; digit(*p); p++, digits--) v = 10 * v + (*p - '0');
        for (; digits < 0; digits++, v /= 10)
            if (v % 10 != 0) refuse("bad number");
        v *= power(digits);
        return p;
    }
    // Skips one blank line, if one is next.
    bool blank() {
        if (*at > ' ') return false;
        const char* p = skip(at);
        if (*p == '\r') p++;
        if (*p != '\n') return false;
        at = p + 1;
        return true;
    }
    // Sees to it that a whole line is next; false at the end.
    bool fill() {
        while (at == whole) {
            if (ended) return false;
            size_t rest = size_t(end - at);
            std::memmove(block.data(), at, rest);
            if (2 * rest > block.size()) block.resize(2 * block.size());
            at = whole = block.data();
            end = at + rest;
            if (answers) answers->flush();
            ssize_t got = read(0, block.data() + rest, block.size() - rest - past);
            if (got < 0) refuse("read fault", 5);
            ended = got == 0;
            if (ended && rest > 0) { block[rest] = '\n'; got = 1; }
            auto* last = static_cast<const char*>(memrchr(end, '\n', size_t(got)));
            if (last) whole = last + 1;
            end += got;
        }
        return true;
    }
    static string& trim(string& text) {
        text.erase(text.find_last_not_of(" \t\r") + 1);
        return text.erase(0, text.find_first_not_of(" \t"));
    }
    static Column field(string text) {
        trim(text);
        Column column;
        size_t colon = text.find(':');
        column.name = text.substr(0, colon);
        while (colon != string::npos) {
            size_t next = text.find(':', colon + 1);
            string part = text.substr(colon + 1, next - colon - 1);
            if (part == "step") column.step = true;
            else if (part != "ramp") column.digits = std::atoi(part.c_str());
            colon = next;
        }
        return column;
    }
};

// The expression of an atom less its constant, or turned round so that the atom asks it to be above 0, or at least 0.
class Sum {
public:
    bool strict;

    Sum(const Node& node, const vector<Column>& columns, int digits) : strict(node.relation.size() == 1) {
        int64_t sign = node.relation[0] == '>' ? 1 : -1;
        constant = -sign * node.constant.in(digits);
        for (const Term& term : node.terms) {
            size_t c = 0;
            while (c < columns.size() && columns[c].name != term.name) c++;
            if (c == columns.size()) refuse("unknown column");
            (columns[c].step ? steps : ramps).push_back({sign * term.coefficient, c + 1});
        }
    }
    // Goes to a row. Up to it the sum is affine, from `before` to `limit`; at it, it is `value`.
    void go(const int64_t* row) {
        int64_t ramp = 0;
        for (auto& [k, c] : ramps) ramp += k * row[c];
        before = value;
        limit = ramp + step;
        step = constant;
        for (auto& [k, c] : steps) step += k * row[c];
        value = ramp + step;
    }
    int64_t before = 0, limit = 0, value = 0;
    bool holds(int64_t v) const { return strict ? v > 0 : v >= 0; }

private:
    int64_t constant, step = 0;
    vector<std::pair<int64_t, size_t>> ramps, steps;
};

// Gives each row to `take`, with the time of the row before, and gives the domain.
template <class Word, class Take>
static DomainOf<Word> read_rows(Reader& reader, Take take) {
    vector<int64_t> row(reader.columns.size() + 1);
    if (!reader.row(row.data())) refuse("no rows");
    int64_t start = row[0], last = start;
    take(last, row.data(), true);
    while (reader.row(row.data())) {
        if (row[0] <= last) refuse("time not rising");
        take(last, row.data(), false);
        last = row[0];
    }
    return {cut<Word>(start, false), cut<Word>(last, true)};
}
