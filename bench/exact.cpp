// A plain exact monitor in C++, to measure `check`, `watch`, `robust`, `rwatch` and `early` beside: the same words, formulas, traces and
// texts, written for speed and proved in nothing. It stops at the first thing that it cannot read, with status 2.
// Build: c++ -O3 -std=c++17 -o exact exact.cpp
#include "exact/early.h"
#include "exact/robust.h"
#include "exact/rwatch.h"
#include "exact/truth.h"
#include "exact/watch.h"

int main(int count, char** words) {
    string_view command = count == 3 ? words[1] : "";
    if (command != "check" && command != "watch" && command != "robust" && command != "rwatch" && command != "early")
        refuse("usage: check F | watch F | robust F | rwatch F | early F");
    vector<Node> nodes = Parser(words[2]).parse();
    Output out;
    Reader reader(command == "watch" || command == "rwatch" || command == "early" ? &out : nullptr);
    reader.header();
    Scale scale{reader.time_digits, 0};
    for (const Column& c : reader.columns) scale.value = std::max(scale.value, c.digits);
    for (const Node& n : nodes) {
        scale.time = std::max({scale.time, n.low.decimals, n.high.decimals});
        scale.value = std::max(scale.value, n.constant.decimals);
    }
    reader.begin(scale);
    if (command == "robust" || command == "rwatch") {
        (command == "robust" ? robust : rwatch)(nodes, reader, scale, out);
        return 0;
    }
    bool holds = command == "watch"   ? watch(nodes, reader, scale, out)
                 : command == "early" ? early(nodes, reader, scale, out)
                                      : check(nodes, reader, scale, out);
    return holds ? 0 : 1;
}
