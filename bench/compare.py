#!/usr/bin/env python3
"""Runs the built program and exact.cpp on random formulas and recordings, and compares every byte and status."""
import argparse
import os
import random
import subprocess
import sys
import tempfile

HERE = os.path.dirname(os.path.realpath(__file__))
PROGRAM = os.path.join(HERE, "..", "crates", "stl_bench", "out", "stl_bench")
COLUMNS = ["x", "y:step", "z:1", "w:step:2"]
COMMANDS = ["check", "watch", "robust", "early", "rwatch"]
WINDOWS = ["eventually", "always", "once", "historically"]
KINDS = ["not", "and", "or", "implies", "until", "since", *WINDOWS]
STREAMED = ["not", "and", "or", "implies", *WINDOWS]  # what `rwatch` takes
UNKNOWN, WIDE = 2, 8


def number(dice, most, digits):
    """A number of at most so many decimals."""
    places = dice.randint(0, digits)
    size = dice.randint(0, most * 10**places)
    return f"{size // 10**places}.{size % 10**places:0{places}d}" if places else str(size)


def bound(dice, past, ends):
    """A bound; `ends` says that its ends may be open."""
    low, high = sorted(dice.randint(0, 12) for _ in range(2))
    if dice.random() < 0.2:
        low = high
    left, right = (dice.choice("[]"), dice.choice("[]")) if ends and dice.random() < 0.4 else "[]"
    if past and dice.random() < 0.3:
        return dice.choice(["", f"{left}{low},inf]"])
    half = dice.choice(["", "", ".5"])
    return f"{left}{low},{high}{half}{right}"


def formula(dice, depth, kinds):
    if depth == 0 or dice.random() < 0.15:
        if dice.random() < 0.08:
            return dice.choice(["true", "false"])
        terms = [f"{dice.choice(['', '2*', '3*'])}{dice.choice('xyzw')}" for _ in range(dice.choice([1, 1, 1, 2]))]
        return f"{dice.choice(['', '-'])}{dice.choice([' + ', ' - ']).join(terms)} {dice.choice(['>=', '>', '<=', '<'])} {dice.choice(['', '-'])}{number(dice, 6, 2)}"
    kind = dice.choice(kinds)
    if kind == "not":
        return f"not ({formula(dice, depth - 1, kinds)})"
    if kind in WINDOWS:
        return f"{kind}{bound(dice, kind in ('once', 'historically'), True)} ({formula(dice, depth - 1, kinds)})"
    middle = kind + (bound(dice, kind == "since", False) if kind in ("until", "since") else "")
    return f"({formula(dice, depth - 1, kinds)}) {middle} ({formula(dice, depth - 1, kinds)})"


def recording(dice):
    """A few rows; or, one time in five, many that lie near each other, so that windows are long beside the gaps."""
    many = dice.random() < 0.2
    lines = [",".join([dice.choice(["time", "time:1"]) if not many else "time:1", *COLUMNS])]
    time = dice.randint(0, 3)
    for _ in range(dice.randint(30, 200) if many else dice.randint(1, 14)):
        at = f"{time // 10}.{time % 10}" if many else str(time)
        lines.append(",".join([at, *(dice.choice(["", "-"]) + number(dice, 7, digits) for digits in (0, 0, 1, 2))]))
        time += dice.choice([1, 1, 2, 3, 7])
    return ("\n".join(lines) + dice.choice(["\n", ""])).encode()


def answer(program, command, text, trace):
    """Status and bytes of one run."""
    done = subprocess.run([program, command, text], input=trace, stdout=subprocess.PIPE, stderr=subprocess.DEVNULL, check=False)
    return done.returncode, done.stdout


def is_telling(command, text):
    """Whether a text says more than one stretch, or that a row decided."""
    return not text.startswith(b"decided at end") if command == "early" else len(text.splitlines()) > 2


def main():
    parser = argparse.ArgumentParser(description=__doc__)
    parser.add_argument("--program", default=PROGRAM, help="the program to compare")
    parser.add_argument("--command", choices=COMMANDS, help="one command alone; by default all that the program has")
    parser.add_argument("--cases", type=int, default=2000)
    parser.add_argument("--seed", type=int, default=1)
    args = parser.parse_args()
    if not os.path.isfile(args.program):
        sys.exit(f"there is no {os.path.normpath(args.program)}: build it first, as README.md says")
    dice = random.Random(args.seed)
    commands = [args.command] if args.command else [c for c in COMMANDS if answer(args.program, c, "true", b"time\n0\n")[0] != UNKNOWN]
    judged, wide = dict.fromkeys(commands, 0), 0
    with tempfile.TemporaryDirectory() as folder:
        other = os.path.join(folder, "exact")
        subprocess.run(["c++", "-O3", "-static", "-std=c++17", "-o", other, os.path.join(HERE, "exact.cpp")], check=True)
        for case in range(args.cases):
            depth = dice.randint(0, 4)
            whole, streamed, trace = formula(dice, depth, KINDS), formula(dice, depth, STREAMED), recording(dice)
            for command in commands:
                text = streamed if command == "rwatch" else whole
                ours, theirs = (answer(program, command, text, trace) for program in (args.program, other))
                # Which margins are refused as wide depends on what a program keeps on its way.
                if command in ("robust", "rwatch") and WIDE in (ours[0], theirs[0]):
                    wide += 1
                    continue
                if ours[0] not in (0, 1) or ours != theirs:
                    print(f"case {case}: {command} {text!r} on {trace!r}\n{ours[0]} {ours[1]!r}\n{theirs[0]} {theirs[1]!r}")
                    return 1
                judged[command] += is_telling(command, ours[1])
    changes = ", ".join(f"{many} of {command}" for command, many in judged.items())
    print(f"{args.cases} cases agree; more than one stretch, or decided by a row: {changes}; wide: {wide}")
    return 0


if __name__ == "__main__":
    sys.exit(main())
