#!/usr/bin/env python3
"""Measures `mux` with several numbers of sessions beside `watch` of the same rows; README.md beside it says how to read the figures."""
import argparse
import os
import random
import sys
import tempfile

from bench import COLUMNS, MAKERS, PROGRAM, TEN, instructions_a_row, run

# Instructions are counted between this part of the rows and all of them, so that no start, of the program or of a session, is in them.
PART = 8


def rows_of(name, rows, seed):
    """The lines of a trace, header first."""
    yield f"time,{COLUMNS[name]}"
    for row, (a, b) in enumerate(MAKERS[name](rows, random.Random(seed))):
        yield f"{10 * row},{a},{b}"


def write_alone(path, name, rows):
    with open(path, "w") as out:
        out.writelines(f"{line}\n" for line in rows_of(name, rows, 7))


def write_many(path, name, rows, sessions, burst):
    """The lines of that many sessions, so many rows in all, in turn: `burst` lines of each."""
    each = [(f"bench{i}", list(rows_of(name, rows // sessions, 7 + i))) for i in range(sessions)]
    most = max(len(lines) for _, lines in each)
    with open(path, "w") as out:
        for at in range(0, most, burst):
            for tag, lines in each:
                out.writelines(f"{tag} {line}\n" for line in lines[at:at + burst])


def figures(args, words, write, folder):
    """ns and instructions a row, and the most MB, over the rows that `write` puts into a file."""
    paths = {rows: os.path.join(folder, f"{rows}.txt") for rows in (args.rows // PART, args.rows)}
    for rows, path in paths.items():
        write(path, rows)
    tries = [run(args.program, words, paths[args.rows]) for _ in range(args.runs)]
    if tries[0][0] not in (0, 1):
        sys.exit(f"status {tries[0][0]} of {words}")
    count = instructions_a_row(args.program, words, paths, sorted(paths), folder) if args.count else None
    return 1e9 * min(cpu for _, cpu, _ in tries) / args.rows, count or 0, max(high for _, _, high in tries) / 1024


def main():
    parser = argparse.ArgumentParser(description="Measures `mux` with several numbers of sessions beside `watch` of the same rows.")
    parser.add_argument("--program", default=PROGRAM, help="the program to measure")
    parser.add_argument("--formula", default=TEN, help="the formula, over x and y; by default the ten nodes of bench.py")
    parser.add_argument("--trace", choices=MAKERS, default="walk", help="the kind of trace")
    parser.add_argument("--rows", type=int, default=204800, help="rows in all")
    parser.add_argument("--sessions", default="1,16,128,1024", help="numbers of sessions, with commas between")
    parser.add_argument("--burst", type=int, default=1, help="lines that a session sends at once")
    parser.add_argument("--runs", type=int, default=3, help="runs of each, of which the fastest counts")
    parser.add_argument("--count", action="store_true", help="count instructions, which valgrind does")
    args = parser.parse_args()
    if not os.path.isfile(args.program):
        sys.exit(f"there is no {os.path.normpath(args.program)}: build it first, as README.md says")
    print(f"{'command':8} {'sessions':>8} {'ns/row':>8} {'instr':>8} {'MB':>8} {'x watch':>8} {'x one':>8}")
    with tempfile.TemporaryDirectory() as folder:
        watch, count, most = figures(args, ["watch", args.formula], lambda path, rows: write_alone(path, args.trace, rows), folder)
        print(f"{'watch':8} {'-':>8} {watch:8.0f} {count:8.0f} {most:8.1f} {1:8.2f} {'-':>8}", flush=True)
        one = None
        for sessions in [int(word) for word in args.sessions.split(",")]:

            def write(path, rows, sessions=sessions):
                write_many(path, args.trace, rows, sessions, args.burst)

            taken, count, most = figures(args, ["mux", args.formula], write, folder)
            one = one or taken
            print(f"{'mux':8} {sessions:8} {taken:8.0f} {count:8.0f} {most:8.1f} {taken / watch:8.2f} {taken / one:8.2f}", flush=True)


if __name__ == "__main__":
    sys.exit(main())
