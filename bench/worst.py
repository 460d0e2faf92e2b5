#!/usr/bin/env python3
"""Looks for the formula and the trace for which a command takes longest; README.md beside it says what was found.

Families of formulas that are hard for some part of the program run over families of traces that are: deep chains and trees of `until`
and `since`, windows in one another whose bounds have no common divisor, windows that all end together, many atoms, atoms of four
columns; ramps that cross everywhere, steps that change at each row or only fall, rows far apart and at odd distances. Each is run with
a limit of time. The slowest of each command are printed, with how the time grew from half as many rows: 1 is linear. With `--count`
their instructions are counted too, which other work on the machine does not change. With `--random` random formulas over random rows
are looked through for those that `explain` takes long for.
"""
import argparse
import math
import os
import random
import resource
import subprocess
import sys
import tempfile
import time

from bench import instructions

HERE = os.path.dirname(os.path.realpath(__file__))
PROGRAM = os.path.join(HERE, "..", "crates", "stl_bench", "out", "stl_bench")
COLUMNS = "abcd"
PRIMES = [2, 3, 5, 7, 11, 13, 17, 19, 23, 29, 31, 37, 41, 43, 47, 53, 59, 61, 67, 71]


def atom(k):
    """An atom of one column, whose constant is another for each k."""
    return f"{COLUMNS[k % 4]} {'>=' if k % 3 else '<'} {(k * 37) % 101 - 50}"


def wide(k):
    """An atom of all four columns, which crosses at other times for each k."""
    return f"{k % 15 + 1}*a - {(k * 7) % 15 + 1}*b + {(k * 3) % 13 + 1}*c - d >= {(k * 37) % 101 - 50}"


def chain_left(word, bounds, depth, leaf):
    text = leaf(0)
    for k in range(1, depth):
        text = f"({text}) {word}{bounds(k)} {leaf(k)}"
    return text


def chain_right(word, bounds, depth, leaf):
    text = leaf(depth)
    for k in range(depth - 1, 0, -1):
        text = f"{leaf(k)} {word}{bounds(k)} ({text})"
    return text


def tree(word, bounds, depth, leaf, place=1):
    if depth == 0:
        return leaf(place)
    return f"({tree(word, bounds, depth - 1, leaf, 2 * place)}) {word}{bounds(depth)} ({tree(word, bounds, depth - 1, leaf, 2 * place + 1)})"


def nested(words, bounds, depth, leaf):
    text = leaf(1)
    for k in range(depth):
        text = f"{words[k % len(words)]}{bounds(k)} ({text})"
    return text


def formulas(rows):
    """The families, by name. A row is about 10 ticks after the one before it."""
    long, short, both = f"[0,{10 * rows}]", "[0,25]", "a >= 0 and b >= 0"
    prime = lambda k: f"[{PRIMES[k % 20]},{PRIMES[k % 20] + 10 * PRIMES[(k * 7) % 20]}]"
    some = {
        "until left": chain_left("until", prime, 30, atom), "until right": chain_right("until", prime, 30, atom),
        "until left, long": chain_left("until", lambda k: long, 30, atom), "until right, long": chain_right("until", lambda k: long, 30, atom),
        "until tree": tree("until", prime, 6, atom), "until tree, long": tree("until", lambda k: long, 6, atom),
        "since left": chain_left("since", prime, 30, atom), "since right": chain_right("since", prime, 30, atom),
        "since left, no end": chain_left("since", lambda k: "[0,inf]", 30, atom), "since tree": tree("since", prime, 6, atom),
        "until in since": chain_left("until", prime, 2, lambda k: chain_left("since", prime, 14, atom)),
        "windows": nested(["always", "eventually"], prime, 30, atom), "windows, long": nested(["always", "eventually"], lambda k: long, 30, atom),
        "windows, open": nested(["always", "eventually"], lambda k: f"]{PRIMES[k % 20]},{PRIMES[k % 20] * 9}[", 30, atom),
        "windows behind": nested(["once", "historically"], prime, 30, atom), "both ways": nested(["always", "once", "eventually", "historically"], prime, 30, atom),
        "points": nested(["always", "once"], lambda k: f"[{PRIMES[k % 20]},{PRIMES[k % 20]}]", 30, atom),
        "one long window": f"always{long} a >= 0", "many atoms": tree("or", lambda k: "", 7, atom), "many sums": tree("and", lambda k: "", 5, wide),
        "windows of sums": tree("and", lambda k: "", 3, lambda k: f"always{prime(k)} ({wide(k)})"),
        "until of sums": tree("until", prime, 4, wide), "one sum": wide(3),
        "implications": chain_right("implies", lambda k: "", 30, lambda k: f"eventually{prime(k)} ({atom(k)})"),
        "kept cells": f"eventually{long} (a >= 0 and b >= 0)", "kept in a window": f"always[0,{5 * rows}] eventually[0,{5 * rows}] (a >= 0 and b >= 0)",
        "kept here and there": f"eventually{long} always[0,20] (a >= 0 and b >= 0)", "kept of many": f"eventually{long} ({tree('and', lambda k: '', 4, atom)})",
        "kept of windows": f"eventually{long} (always{short} a >= 0 and always{short} b >= 0)",
        "kept by until": f"true until{long} ({both})", "kept by since": f"eventually{long} (true since[0,20] ({both}))",
        "kept in until": f"eventually{long} (a >= 0 until[0,20] ({both}))", "kept before until": f"always[0,{5 * rows}] (true until[0,{5 * rows}] ({both}))",
        "kept behind": f"eventually{long} historically[0,20] ({both})", "kept at some time": f"always[0,5] eventually{long} always[0,20] ({both})",
        "kept in windows": f"eventually{long} always[0,20] always[0,20] ({both})", "kept in turn": f"eventually{long} always[0,20] eventually[0,20] ({both})",
        "kept of implications": f"eventually{long} always[0,20] (a >= 0 implies b >= 5)",
        "kept by once": f"always[{5 * rows},{10 * rows}] once[0,{5 * rows}] ({both})",
        "kept beside": f"always[0,{5 * rows}] ((a >= 0 or b >= 0) and (true until[0,{5 * rows}] ({both})))",
        "kept twice": f"always[0,{5 * rows}] (true until[0,{5 * rows}] (not (a >= 0 implies b < 0) or {both}))",
        "kept after all": f"eventually[{5 * rows},{10 * rows}] (a >= 0 until[0,20] (true until[0,{5 * rows}] always[0,{5 * rows}] once{long} ({both})))",
        "gained within": f"eventually{long} (a >= 0 until{long} always{long} a >= -99999999)",
        "gained between": f"eventually{long} ((once[{5 * rows},{5 * rows}] a >= 0 or c >= 0) until{long} always{long} a >= -99999999)",
        "gained in places": f"eventually{long} ((once[{5 * rows},{5 * rows}] a >= 0 or once[{3 * rows},{3 * rows}] b >= 0 or c >= 0) until{long} always{long} a >= -99999999)",
    }
    return {name: text for name, text in some.items() if len(text) <= 8192}


def traces(rows, dice):
    """The families, by name: the time of each row, its values, and whether they are steps."""
    tens = lambda row: 10 * row
    far = lambda row: row * (2 ** 32 // (rows + 1)) + row % 7
    sign = lambda row: 1 if row % 2 else -1
    yield "cross", tens, False, lambda row: [sign(row + k) * dice.randint(1, 999) for k in range(4)]
    yield "cross, far", far, False, lambda row: [sign(row + k) * dice.randint(1, 16777216) for k in range(4)]
    yield "turn", tens, True, lambda row: [sign(row), -sign(row), sign(row // 2), sign(row // 3)]
    yield "steps", tens, True, lambda row: [dice.randint(-60, 60) for k in range(4)]
    yield "fall", tens, True, lambda row: [rows - row + k for k in range(4)]
    yield "slide", tens, False, lambda row: [rows - row + k * (row % 3) for k in range(4)]


def window(dice, rows, far):
    """Bounds of a window, some as long as the trace where `far` is so."""
    low = dice.choice([0, 0, 0, 1, 2, 3])
    high = low + dice.choice([0, 1, 2, 3, 5, 7, 9])
    if far and dice.random() < 0.4:
        low, high = dice.choice([(0, rows), (0, rows // 2), (rows // 2, rows), (0, rows // 3)])
    left = "]" if dice.random() < 0.25 and high > low else "["
    right = "[" if dice.random() < 0.25 and high > low + 1 else "]"
    return f"{left}{low},{high}{right}"


def random_formula(dice, rows, far, depth):
    """A formula over columns that are 0 or 1, nested so deep at most."""
    if depth == 0 or dice.random() < 0.12:
        return f"{dice.choice(COLUMNS)} {dice.choice(['>=', '<'])} {dice.choice([1, 1, 1, 0, 2])}"
    some = lambda: random_formula(dice, rows, far, depth - 1)
    word = dice.choice(["not", "and", "or", "implies", "until", "until", "since", "since", "eventually", "always", "once", "historically"])
    if word == "not":
        return f"not ({some()})"
    if word in ("and", "or", "implies"):
        return f"(({some()}) {word} ({some()}))"
    if word in ("until", "since"):
        bounds = "" if word == "since" and dice.random() < 0.3 else closed(window(dice, rows, far))
        return f"(({some()}) {word}{bounds} ({some()}))"
    return f"({word}{window(dice, rows, far)} ({some()}))"


def closed(bounds):
    """The same bounds with both in."""
    return f"[{bounds[1:-1]}]"


def random_rows(dice, rows):
    """Rows a tick apart, or ten, of four columns of ramps or steps that are 0 or 1 at random, or change seldom."""
    step, tick, seldom = dice.choice([":step", ""]), dice.choice([1, 1, 10]), dice.random() < 0.3
    lines, values = ["time," + ",".join(c + step for c in COLUMNS)], [0, 1, 0, 1]
    for row in range(rows):
        values = [dice.randint(0, 1) if not seldom or dice.random() < 0.1 else value for value in values]
        lines.append(f"{row * tick}," + ",".join(map(str, values)))
    return tick, "".join(line + "\n" for line in lines)


def growth(before, now):
    """The exponent by which a time grew from half as many rows."""
    return math.log2(now / before) if before else 0


def is_slow(options, before, now):
    """Whether a random case takes long, or much longer than over half the rows."""
    return now > 2 or (now > options.show and growth(before, now) > 1.2)


def random_case(options, case, rows, folder):
    """One run of a random formula over random rows: its seconds, its status, its formula."""
    dice = random.Random(f"{options.seed} {case}")
    tick, text = random_rows(random.Random(f"{options.seed} rows {case}"), rows)
    far = dice.random() < 0.5
    body = random_formula(dice, rows * tick, far, dice.randint(1, 4))
    formula = dice.choice(["eventually", "eventually", "always"]) + f"[0,{rows * tick}] ({body})"
    path = os.path.join(folder, "random")
    with open(path, "w") as out:
        out.write(text)
    status, seconds, _ = run(options.program, "explain", formula, path, options.limit)
    return seconds, status, formula


def search(options, folder):
    """Random formulas over random rows: a line for each that takes long, or much longer than over half the rows."""
    flagged, failed, began = 0, 0, time.monotonic()
    for case in range(options.random):
        if time.monotonic() - began > options.time:
            print(f"the time is up after {case} formulas")
            break
        before, _, _ = random_case(options, case, options.rows // 2, folder)
        now, status, formula = random_case(options, case, options.rows, folder)
        if is_slow(options, before, now):
            # A machine that does other work takes longer now and then: the least of three runs counts.
            for _ in range(2):
                before = min(before, random_case(options, case, options.rows // 2, folder)[0])
                now = min(now, random_case(options, case, options.rows, folder)[0])
        failed += status == 1
        if status is None or is_slow(options, before, now):
            flagged += 1
            print(f"case {case}: {now:.2f} s, growth {growth(before, now):.2f}, status {status}: {formula}")
    print(f"{flagged} flagged; {failed} violations of seed {options.seed} over {options.rows} rows")


def write(path, trace, rows):
    """The trace alone, and beside it the same as the one session of an input of many."""
    name, time, step, values = trace
    with open(path, "w") as out, open(tagged(path), "w") as session:
        lines = ["time," + ",".join(c + (":step" if step else "") for c in COLUMNS)]
        for row in range(rows):
            lines.append(f"{time(row)}," + ",".join(map(str, values(row))))
        out.writelines(line + "\n" for line in lines)
        session.writelines(f"bench {line}\n" for line in lines)


def tagged(path):
    return path + ".tagged"


def run(program, command, formula, path, limit):
    """Status (None where the limit was passed), CPU seconds and MB of one run."""
    def bound():
        resource.setrlimit(resource.RLIMIT_CPU, (limit, limit))
    with open(tagged(path) if command == "mux" else path) as trace:
        child = subprocess.Popen([program, command, formula], stdin=trace, stdout=subprocess.DEVNULL, stderr=subprocess.DEVNULL, preexec_fn=bound)
        _, status, used = os.wait4(child.pid, 0)
        child.returncode = code = os.waitstatus_to_exitcode(status)
    return (None if code < 0 else code), used.ru_utime + used.ru_stime, used.ru_maxrss / 1024


def commands(program):
    """The commands of the usage line that take one formula and read one input."""
    line = subprocess.run([program], capture_output=True, text=True).stderr
    return [word.split()[0] for word in line.removeprefix("usage: ").strip().split(" | ") if word.endswith(" F")]


def measure(options, folder):
    """One line for each case that took longer than the program's start: time, command, names, status, growth and memory."""
    halves, found = [options.rows // 2, options.rows], []
    texts = [formulas(rows) for rows in halves]
    for index, (name, *_) in enumerate(traces(1, random.Random(7))):
        paths = [os.path.join(folder, f"{index}.{rows}") for rows in halves]
        for path, rows in zip(paths, halves):
            write(path, list(traces(rows, random.Random(7)))[index], rows)
        for family in [family for family in texts[1] if options.families in family]:
            for command in options.commands:
                status, took, memory = run(options.program, command, texts[1][family], paths[1], options.limit)
                _, before, _ = run(options.program, command, texts[0][family], paths[0], options.limit) if took > options.show else (0, 0, 0)
                grown = growth(before, took) if before and status is not None else float("nan")
                found.append((took, command, family, name, status, grown, memory))
                if status is None or took > options.report:
                    print(f"  {command} {family} over {name}: {took:.2f} s", file=sys.stderr)
    return found


def counted(options, command, family, trace, folder):
    """The instructions of a run, in millions, and the exponent by which they grew from half as many rows; without valgrind none."""
    counts = []
    for rows in (options.rows // 2, options.rows):
        path = os.path.join(folder, "counted")
        write(path, next(it for it in traces(rows, random.Random(7)) if it[0] == trace), rows)
        words = [command, formulas(rows)[family]]
        counts.append(instructions(options.program, words, tagged(path) if command == "mux" else path, folder))
    return "" if None in counts else f" {counts[1] / 1e6:8.1f} {growth(*counts):6.2f}"


def table(options, found, folder):
    """The slowest cases of each command, a line each."""
    head = f"{'command':8} {'formula':20} {'trace':11} {'status':>6} {'seconds':>8} {'us/row':>7} {'growth':>6} {'MB':>6}"
    print(head + f" {'M instr':>8} {'growth':>6}" if options.count else head)
    for command in options.commands:
        for took, _, family, name, status, grown, memory in [case for case in found if case[1] == command][:options.top]:
            ended = "limit" if status is None else status
            more = counted(options, command, family, name, folder) if options.count else ""
            print(f"{command:8} {family:20} {name:11} {ended:>6} {took:8.2f} {took / options.rows * 1e6:7.1f} {grown:6.2f} {memory:6.0f}{more}", flush=True)


def main():
    parser = argparse.ArgumentParser(description=__doc__.split("\n\n")[0])
    parser.add_argument("--program", default=PROGRAM)
    parser.add_argument("--rows", type=int, default=20000)
    parser.add_argument("--limit", type=int, default=60, help="seconds of the processor for one run")
    parser.add_argument("--show", type=float, default=0.1, help="from how many seconds on the growth is measured")
    parser.add_argument("--report", type=float, default=5, help="from how many seconds on a case is told at once")
    parser.add_argument("--top", type=int, default=5, help="how many cases of each command are printed")
    parser.add_argument("--count", action="store_true", help="count the instructions of those too, by valgrind")
    parser.add_argument("--commands", type=lambda text: text.split(","))
    parser.add_argument("--families", default="", help="a word that the names of the formulas have that are run; without it all are")
    parser.add_argument("--random", type=int, default=0, help="so many random formulas for `explain`, in place of the families")
    parser.add_argument("--seed", type=int, default=1, help="of the random formulas and rows")
    parser.add_argument("--time", type=int, default=1800, help="seconds after which no more random formulas are tried")
    options = parser.parse_args()
    if not os.path.isfile(options.program):
        sys.exit(f"there is no {os.path.normpath(options.program)}: build it first, as README.md says")
    if options.random:
        with tempfile.TemporaryDirectory() as folder:
            search(options, folder)
        return
    options.commands = options.commands or commands(options.program)
    with tempfile.TemporaryDirectory() as folder:
        table(options, sorted(measure(options, folder), reverse=True), folder)


if __name__ == "__main__":
    main()
