// Formulas, read from their text into nodes in post-order.
#pragma once
#include <algorithm>
#include <array>
#include <cctype>
#include <string>
#include <string_view>
#include <vector>

#include "place.h"

using std::string;
using std::string_view;
using std::vector;

enum class Kind { constant, atom, negation, both, either, implies, until, since, eventually, always, once, historically };

struct Number {
    int64_t value = 0;
    int decimals = 0;
    int64_t in(int digits) const {
        int64_t v = value;
        for (int d = decimals; d < digits; d++) v *= 10;
        return v;
    }
};

struct Term {
    int64_t coefficient;
    string name;
    size_t column = 0;
};

struct Node {
    explicit Node(Kind kind) : kind(kind) {}
    Kind kind;
    int left = -1, right = -1;
    Number low, high;
    bool low_in = true, high_in = true, bounded = true, holds = false;
    vector<Term> terms;
    string relation;
    Number constant;
};

class Parser {
public:
    explicit Parser(string_view text) : text(text) { next(); }
    vector<Node> parse() {
        formula();
        if (!token.empty()) refuse("formula: expected the end");
        return std::move(nodes);
    }

private:
    string_view text, token;
    size_t at = 0;
    vector<Node> nodes;

    static bool starts_word(char c) { return std::isalpha(static_cast<unsigned char>(c)) || c == '_'; }
    static bool digit(char c) { return c >= '0' && c <= '9'; }

    void next() {
        while (at < text.size() && (text[at] == ' ' || text[at] == '\t' || text[at] == '\n' || text[at] == '\r')) at++;
        size_t from = at;
        if (at == text.size()) {
        } else if (starts_word(text[at])) {
            while (at < text.size() && (starts_word(text[at]) || digit(text[at]) || text[at] == '.')) at++;
        } else if (digit(text[at])) {
            while (at < text.size() && (digit(text[at]) || text[at] == '.')) at++;
        } else {
            at += (text[at] == '<' || text[at] == '>') && at + 1 < text.size() && text[at + 1] == '=' ? 2 : 1;
        }
        token = text.substr(from, at - from);
    }
    bool take(string_view word) {
        if (token != word) return false;
        next();
        return true;
    }
    void expect(string_view word) {
        if (!take(word)) refuse("formula: something else was expected");
    }
    Number number() {
        if (token.empty() || !digit(token[0])) refuse("formula: expected a number");
        Number n;
        bool after = false;
        for (char c : token) {
            if (c == '.') { after = true; continue; }
            n.value = 10 * n.value + (c - '0');
            n.decimals += after;
        }
        for (; n.decimals > 0 && n.value % 10 == 0; n.decimals--) n.value /= 10;
        next();
        return n;
    }
    int add(Node node) {
        nodes.push_back(std::move(node));
        return int(nodes.size()) - 1;
    }
    void bound(Node& node) {
        node.low_in = token == "[";
        if (token != "[" && token != "]") refuse("formula: expected a bound");
        next();
        node.low = number();
        expect(",");
        if (take("inf")) node.bounded = false;
        else node.high = number();
        node.high_in = token == "]";
        next();
    }
    int formula() {
        int left = disjunct();
        if (!take("implies")) return left;
        Node node{Kind::implies};
        node.left = left;
        node.right = formula();
        return add(std::move(node));
    }
    int chain(Kind kind, string_view word, int (Parser::*part)()) {
        int left = (this->*part)();
        while (take(word)) {
            Node node{kind};
            node.left = left;
            node.right = (this->*part)();
            left = add(std::move(node));
        }
        return left;
    }
    int disjunct() { return chain(Kind::either, "or", &Parser::conjunct); }
    int conjunct() { return chain(Kind::both, "and", &Parser::timed); }
    int timed() {
        int left = operand();
        bool ahead = token == "until";
        if (!ahead && token != "since") return left;
        next();
        Node node{ahead ? Kind::until : Kind::since};
        node.left = left;
        if (token == "[") bound(node);
        else node.bounded = false;
        node.right = operand();
        return add(std::move(node));
    }
    int operand() {
        static constexpr std::array<std::pair<string_view, Kind>, 5> words{{{"not", Kind::negation}, {"eventually", Kind::eventually},
            {"always", Kind::always}, {"once", Kind::once}, {"historically", Kind::historically}}};
        for (auto& [word, kind] : words)
            if (take(word)) {
                Node node{kind};
                if (kind != Kind::negation) {
                    if (token == "[" || token == "]") bound(node);
                    else node.bounded = false;
                }
                node.left = operand();
                return add(std::move(node));
            }
        if (token == "true" || token == "false") {
            Node node{Kind::constant};
            node.holds = token == "true";
            next();
            return add(std::move(node));
        }
        if (take("(")) {
            int inner = formula();
            expect(")");
            return inner;
        }
        return atom();
    }
    int atom() {
        Node node{Kind::atom};
        bool minus = take("-");
        if (!minus) take("+");
        do {
            int64_t coefficient = 1;
            if (!token.empty() && digit(token[0])) {
                coefficient = number().value;
                expect("*");
            }
            node.terms.push_back({minus ? -coefficient : coefficient, string(token)});
            next();
            minus = token == "-";
        } while (take("-") || take("+"));
        node.relation = string(token);
        next();
        minus = take("-");
        if (!minus) take("+");
        node.constant = number();
        if (minus) node.constant.value = -node.constant.value;
        return add(std::move(node));
    }
};
