#!/usr/bin/env python3
"""Measures the commands of the built program on traces that it makes itself; README.md beside it says how to read the figures."""
import argparse
import math
import os
import random
import shutil
import subprocess
import sys
import tempfile
import time

HERE = os.path.dirname(os.path.realpath(__file__))
PROGRAM = os.path.join(HERE, "..", "crates", "stl_bench", "out", "stl_bench")

# What each trace has in its two columns, besides the time, which goes up by 10 a row.
COLUMNS = {"walk": "x,y", "cross": "x,y", "steps": "x:step,y:step", "alt": "x:step,y:step", "auto": "brake:step,speed", "reply": "x:step,y:step"}

# One atom; ten nodes; the temporal operators, over short and long windows.
TEN = "always[0,50] (x >= 0 or y <= 40) and (y >= 10 since x <= 200) and not once[5,20] x >= 900"
ATOM = "x >= 0"
CASES = [
    ("atom", ATOM, "walk cross steps alt"),
    ("response", "always[0,10000000] (brake >= 1 implies eventually[0,100] speed <= 10)", "auto"),
    ("ten nodes", TEN, "walk cross steps alt"),
    ("until", "x >= 0 until[10,2000] y >= 500", "walk cross alt"),
    ("since", "x >= 0 since[10,2000] y >= 500", "walk cross alt"),
    ("window of 10", "always[0,10] x >= 0", "walk cross"),
    ("window of 1000", "always[0,1000] x >= 0", "walk cross"),
    ("window of 100000", "eventually[1,100000] x >= 500", "walk cross"),
    ("window behind", "historically[2,1000] x >= 0", "walk cross"),
]

# What no row settles, so that `early` works to the end: a response, the same by `until`, two long windows, one atom.
LATE = [
    ("response", "always[0,10000000] (x >= 0 implies eventually[0,1000] y >= 0)", "reply cross alt"),
    ("until", "always[0,10000000] (x >= 0 implies (x >= 0 until[0,1000] y >= 0))", "reply"),
    ("two lags", "always[0,10000000] (eventually[0,1000000] x >= 0 or once[0,1000000] y >= 0)", "reply alt"),
    ("atom", "always[0,10000000] x <= 5000", "walk"),
]

# Margins as rows come: formulas without until and since, over short and long windows, in one another, and twelve nodes.
TWELVE = "always[0,1000] (x >= 0 implies eventually[0,100] y >= 0) and (once[0,50] x <= 100 or historically[0,200] (y >= -100 and not x >= 300))"
STREAMED = [
    ("atom", ATOM, "walk cross"),
    ("window of 10", "eventually[0,10] x >= 0", "walk cross"),
    ("window of 100000", "eventually[0,100000] x >= 0", "walk cross"),
    ("nested windows", "always[0,1000] eventually[0,100] x >= 0", "walk cross"),
    ("twelve nodes", TWELVE, "walk cross"),
]
OWN_CASES = {"early": LATE, "rwatch": STREAMED}
COMMANDS = ["check", "watch", "robust", "rwatch", "explain", "json", "table", "early"]


def walk(rows, dice):
    """Ramps that go up and down by little, so that they pass a level seldom."""
    x, y = 300, -200
    for _ in range(rows):
        yield x, y
        x = min(max(x + dice.randint(-9, 9), -5000), 5000)
        y = min(max(y + dice.randint(-9, 9), -5000), 5000)


def cross(rows, dice):
    """Ramps that pass 0 in each gap."""
    for row in range(rows):
        sign = 1 if row % 2 else -1
        yield sign * dice.randint(1, 999), -sign * dice.randint(1, 999)


def steps(rows, dice):
    """Steps that change every hundred rows or so."""
    x, y = 1, 1
    for _ in range(rows):
        if dice.random() < 0.01:
            x = dice.randint(-999, 999)
        if dice.random() < 0.01:
            y = dice.randint(-999, 999)
        yield x, y


def alt(rows, dice):
    """Steps that change their sign at each row."""
    return cross(rows, dice)


def auto(rows, dice):
    """A brake that is stepped on now and then, and a speed that falls while it is on."""
    brake, speed = 0, 30
    for _ in range(rows):
        if dice.random() < 0.02:
            brake = 1 - brake
        yield brake, speed
        speed = max(speed - 5, 0) if brake else min(speed + 1, 60)


def reply(rows, dice):
    """Requests that stay on until they are answered, in less than a hundred rows."""
    due = None
    for row in range(rows):
        if due is None and dice.random() < 0.02:
            due = row + dice.randint(5, 80)
        yield 1 if due is not None else -1, 1 if due == row else -1
        if due == row:
            due = None


MAKERS = {"walk": walk, "cross": cross, "steps": steps, "alt": alt, "auto": auto, "reply": reply}


def write_trace(path, name, rows):
    with open(path, "w") as out:
        out.write(f"time,{COLUMNS[name]}\n")
        out.writelines(f"{10 * row},{a},{b}\n" for row, (a, b) in enumerate(MAKERS[name](rows, random.Random(7))))


def high_water(pid):
    """The most memory that a process had so far, in KB, or 0 once it has ended."""
    try:
        with open(f"/proc/{pid}/status") as status:
            return next((int(line.split()[1]) for line in status if line.startswith("VmHWM")), 0)
    except OSError:
        return 0


def run(program, words, path):
    """Status, CPU seconds and the most memory in KB of one run."""
    with open(path) as trace, open(os.devnull, "w") as sink:
        child = subprocess.Popen([program, *words], stdin=trace, stdout=sink, stderr=sink)
        most = 0
        while True:
            most = max(most, high_water(child.pid))
            pid, status, used = os.wait4(child.pid, os.WNOHANG)
            if pid:
                break
            time.sleep(0.002)
        child.returncode = os.waitstatus_to_exitcode(status)
    # What wait4 tells counts this interpreter too, from before the program began: it is right where it is more.
    if used.ru_maxrss > high_water(os.getpid()):
        most = used.ru_maxrss
    return child.returncode, used.ru_utime + used.ru_stime, most


def instructions(program, words, path, folder):
    """The instructions of one run, counted by valgrind; None where it is missing."""
    if shutil.which("valgrind") is None:
        return None
    out = os.path.join(folder, "callgrind.out")
    command = ["valgrind", "--tool=callgrind", f"--callgrind-out-file={out}", program, *words]
    with open(path) as trace:
        subprocess.run(command, stdin=trace, stdout=subprocess.DEVNULL, stderr=subprocess.DEVNULL, check=False)
    with open(out) as counted:
        return next((int(line.split()[1]) for line in counted if line.startswith(("summary:", "totals:"))), None)


def instructions_a_row(program, words, paths, counted, folder):
    """What each row takes between two numbers of rows, so that no start of a process is in it; None where nothing counts."""
    few, many = counted
    ends = [instructions(program, words, paths[rows], folder) for rows in counted]
    return None if None in ends else (ends[1] - ends[0]) / (many - few)


def stands(program, command, path):
    """Whether the program has the command: it judges an atom, with any status but that of unknown words."""
    return run(program, [command, ATOM], path)[0] in (0, 1)


def measure(programs, words, paths, sizes, runs, counted, folder):
    """What each program takes, measured in turn: seconds at each size, instructions a row, the most MB; or another status."""
    figures = [{"seconds": {}, "count": 0, "peak": 0} for _ in programs]
    for rows in sizes:
        tries = [[run(program, words, paths[rows]) for program in programs] for _ in range(runs)]
        for figure, own in zip(figures, zip(*tries)):
            if own[0][0] not in (0, 1):
                return f"status {own[0][0]}"
            figure["seconds"][rows] = min(cpu for _, cpu, _ in own)
            figure["peak"] = max(figure["peak"], *(high / 1024 for _, _, high in own))
    for figure, program in zip(figures, programs):
        if counted:
            figure["count"] = instructions_a_row(program, words, paths, counted, folder) or 0
    return figures


def line(figure, sizes):
    """ns a row at each size, instructions a row, MB, and the growth between the last two sizes."""
    seconds = figure["seconds"]
    text = " ".join(f"{1e9 * seconds[rows] / rows:8.0f}" for rows in sizes)
    text += f" {figure['count']:8.0f}" if figure["count"] else f" {'-':>8}"
    text += f" {figure['peak']:8.1f}"
    if len(sizes) < 2 or seconds[sizes[-2]] == 0:
        return text + f" {'-':>6}"
    few, many = sizes[-2:]
    return text + f" {math.log(seconds[many] / seconds[few]) / math.log(many / few):6.3f}"


def ratios(figure, other, sizes):
    """How many times as much as another: instructions, CPU time at each size, memory."""
    pairs = [(figure["count"], other["count"]), *((figure["seconds"][rows], other["seconds"][rows]) for rows in sizes), (figure["peak"], other["peak"])]
    return "  " + " ".join(f"{ours / theirs:8.2f}" if ours and theirs else f"{'-':>8}" for ours, theirs in pairs)


def counted_between(parser, word):
    """The two numbers of rows of a word like 2000,20000; none of the word 0."""
    if word == "0":
        return []
    try:
        few, many = (int(part) for part in word.split(","))
    except ValueError:
        parser.error("--count takes two numbers of rows with a comma between, or 0")
    if not 0 < few < many:
        parser.error("--count takes fewer rows first")
    return [few, many]


def main():
    parser = argparse.ArgumentParser(description="Measures the commands of the built program on traces that it makes itself.")
    parser.add_argument("--program", default=PROGRAM, help="the program to measure")
    parser.add_argument("--beside", help="another program, measured in turn with it; ratios to it are shown")
    parser.add_argument("--sizes", default="10000,100000,1000000", help="numbers of rows, with commas between")
    parser.add_argument("--runs", type=int, default=3, help="runs of each, of which the fastest counts")
    parser.add_argument("--count", default="2000,20000", help="the two numbers of rows between which instructions are counted, 0 for none")
    parser.add_argument("--only", default="", help="a word that the name of a case must have")
    parser.add_argument("--command", choices=COMMANDS, help="one command alone")
    args = parser.parse_args()
    if not os.path.isfile(args.program):
        sys.exit(f"there is no {os.path.normpath(args.program)}: build it first, as README.md says")
    sizes = sorted({int(word) for word in args.sizes.split(",")})
    counted = counted_between(parser, args.count)
    programs = [args.program, args.beside] if args.beside else [args.program]
    head = f"{'command':8} {'formula':17} {'trace':6} " + " ".join(f"{f'ns/{n}':>8}" for n in sizes) + f" {'instr':>8} {'MB':>8} growth"
    print(head + "  " + " ".join(f"{f'x {of}':>8}" for of in ["instr", *sizes, "MB"]) if args.beside else head)
    with tempfile.TemporaryDirectory() as folder:
        made = {}

        def trace(name, rows):
            if (name, rows) not in made:
                made[name, rows] = os.path.join(folder, f"{name}-{rows}.csv")
                write_trace(made[name, rows], name, rows)
            return made[name, rows]

        small = trace("walk", min(sizes))
        for command in [args.command] if args.command else COMMANDS:
            if not all(stands(program, command, small) for program in programs):
                continue
            for name, formula, traces in OWN_CASES.get(command, CASES):
                for kind in traces.split():
                    if args.only not in f"{name} {kind}":
                        continue
                    paths = {rows: trace(kind, rows) for rows in {*sizes, *counted}}
                    figures = measure(programs, [command, formula], paths, sizes, args.runs, counted, folder)
                    text = figures if isinstance(figures, str) else line(figures[0], sizes)
                    if args.beside and not isinstance(figures, str):
                        text += ratios(*figures, sizes)
                    print(f"{command:8} {name:17} {kind:6} {text}", flush=True)


if __name__ == "__main__":
    sys.exit(main())
