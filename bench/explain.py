#!/usr/bin/env python3
"""How long `explain` takes by the number of cells and of kept items, and how many evaluations that is.

Two step columns take turns in being 0, so that `eventually[0,W] (x >= 1 and y >= 1)` fails, and each time up to W needs the column that
is 0 there: of some 4 cells a row, 2 W + 1 are kept, which stand together. The evaluations are those of the search of `least_enough` over
these places: the program does not count them. The bound is the proved one, 1 + (m + 1) d with 2^d at least n + 1, for m items and n cells.
The seconds are those of the processor, less what the same formula takes over two rows: so the start of the program is not in them.
"""
import argparse
import os
import pathlib
import resource
import subprocess
import sys
import time

ROOT = pathlib.Path(__file__).resolve().parent.parent

# Over so few rows nearly all that is taken is the start of the program.
FEW = 2


def trace(rows):
    """The trace: x is 0 at even times, y at odd ones."""
    return "time,x:step,y:step\n" + "".join(f"{t},{t % 2},{1 - t % 2}\n" for t in range(rows))


def cells(rows):
    """How many cells the atoms have: each time is a cut of both columns. With 4 more of the nodes above they may be 65,536."""
    return 2 * (2 * rows - 1)


def kept(rows, width):
    """The places of the kept cells among all: those of x before those of y."""
    places = []
    for part in range(2 * width + 1):
        column = (part // 2) % 2
        places.append(column * (2 * rows - 1) + part)
    return sorted(places)


def evaluations(count, places):
    """How often the search evaluates the formula, with one evaluation of all nodes before, where each needed cell is shown by its trial."""
    total, left, marked, tries, to = 1, count, set(), 0, count
    while left > 0:
        below = [p for p in places if p < left and p not in marked]
        enough = below[-1] + 1 if below else 0
        low, high, room, reach, expected = 0, left, count, 1, left - to
        while low < high:
            jump = expected or min(reach, (high - low) - (high - low) // 2)
            near = high - min(jump, room // 2 + 1, high - low)
            middle = low + min(near - low, room // 2)
            room, reach, expected, total = room // 2, reach * 2, 0, total + 1
            if middle >= enough:
                high = middle
            else:
                low = middle + 1
        if high == 0:
            break
        left = high - 1
        tries = max(64, count // 64, tries * 4 if left < to else tries // 2)
        to = max(0, left - tries)
        marked.update(p for p in places if to <= p < left)
    return total


def seconds(program, formula, text, runs):
    """The least time of the processor of some runs, and the text of the last."""
    least, out = None, b""
    for _ in range(runs):
        before = resource.getrusage(resource.RUSAGE_CHILDREN)
        done = subprocess.run([program, "explain", formula], input=text.encode(), capture_output=True, check=False)
        after = resource.getrusage(resource.RUSAGE_CHILDREN)
        spent = after.ru_utime - before.ru_utime + after.ru_stime - before.ru_stime
        least, out = spent if least is None else min(least, spent), done.stdout
        assert done.returncode == 1, done.stderr
    return least, out


def main():
    """A line for each number of rows and width."""
    parser = argparse.ArgumentParser(description=__doc__, formatter_class=argparse.RawDescriptionHelpFormatter)
    parser.add_argument("--program", default=str(ROOT / "crates/stl_bench/out/stl_bench"))
    parser.add_argument("--runs", type=int, default=10)
    args = parser.parse_args()
    if not os.path.isfile(args.program):
        sys.exit(f"there is no {os.path.normpath(args.program)}: build it first, as README.md says")
    print(f"{'cells':>7}{'kept':>6}{'evaluations':>13}{'bound':>7}{'seconds':>9}")
    for rows in (250, 2500, 16383):
        text = trace(rows)
        for width in (0, 5, 50):
            formula = f"eventually[0,{width}] (x >= 1 and y >= 1)"
            start, _ = seconds(args.program, formula, trace(FEW), args.runs)
            least, out = seconds(args.program, formula, text, args.runs)
            assert out.count(b"\n") == width + 2, out
            count, items = cells(rows), 2 * width + 1
            bound = 1 + (items + 1) * count.bit_length()
            print(f"{count:>7}{items:>6}{evaluations(count, kept(rows, width)):>13}{bound:>7}{max(least - start, 0):>9.4f}")


if __name__ == "__main__":
    main()
