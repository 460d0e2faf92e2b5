#!/usr/bin/env python3
"""Measures what a line of a bench costs on its way: mux, dealing by tag, in_order, mosquitto; README.md beside it says how to read the figures.

    bench/fleet.py [--lines N] [--benches N] [--runs N] [--program FILE]

All figures are microseconds of the processor a line, user and system, of a process and what it waited for: the least of the runs. What is
not installed is left out. soak.py beside it measures Redis.
"""
import argparse
import os
import pathlib
import random
import shutil
import socket
import subprocess
import sys
import tempfile
import time

ROOT = pathlib.Path(__file__).resolve().parent.parent
PROGRAM = ROOT / "crates" / "stl_bench" / "out" / "stl_bench"
FORMULA = "eventually[0,2] x >= 5"


def took(process):
    """Waits for a process: its seconds of the processor."""
    _, status, usage = os.wait4(process.pid, 0)
    process.returncode = os.waitstatus_to_exitcode(status)
    return usage.ru_utime + usage.ru_stime


def write_stream(lines, benches, numbered):
    """One line of each bench in turn, as mux takes them or as in_order does."""
    dice, rows = random.Random(7), lines // benches
    with open("numbered" if numbered else "lines", "w", encoding="ascii") as out:
        for row in range(rows):
            for bench in range(benches):
                text = "time:1,x" if row == 0 else "." if row == rows - 1 else f"{row * 0.5:.1f},{dice.randint(0, 9)}"
                out.write(f"b{bench} {row + 1} {text}\n" if numbered else f"b{bench} {text}\n")
    return rows * benches


def filtered(words, name):
    """The seconds of a filter over a file, its output thrown away."""
    with open(name, "rb") as given:
        process = subprocess.Popen(words, stdin=given, stdout=subprocess.DEVNULL, stderr=subprocess.DEVNULL)
    seconds = took(process)
    if process.returncode:
        sys.exit(f"fleet: {words} ended with {process.returncode}")
    return seconds


def over_mosquitto(lines):
    """The seconds of the broker, of who publishes and of who subscribes, for lines of one topic with QoS 2."""
    with socket.socket() as some:
        some.bind(("127.0.0.1", 0))
        port = str(some.getsockname()[1])
    with open("mosquitto.conf", "w", encoding="ascii") as out:
        out.write(f"listener {port} 127.0.0.1\nallow_anonymous true\nmax_queued_messages 0\n")
    broker = subprocess.Popen(["mosquitto", "-c", "mosquitto.conf"], stdout=subprocess.DEVNULL, stderr=subprocess.DEVNULL)
    try:
        time.sleep(2)
        heard = subprocess.Popen(["mosquitto_sub", "-p", port, "-q", "2", "-t", "rows/0/a", "-C", str(lines), "-W", "200"], stdout=subprocess.DEVNULL)
        time.sleep(2)
        text = "".join(f"{number} {number * 0.5:.1f},{number % 10}\n" for number in range(lines))
        with open("rows", "w", encoding="ascii") as out:
            out.write(text)
        with open("rows", "rb") as given:
            sends = subprocess.Popen(["mosquitto_pub", "-p", port, "-q", "2", "-l", "-t", "rows/0/a"], stdin=given)
        sent, received = took(sends), took(heard)
    finally:
        broker.terminate()
        served = took(broker)
    return served, sent, received


def least(runs, measured):
    """The least of some runs, each figure by itself."""
    return [min(values) for values in zip(*(measured() for _ in range(runs)))]


def main():
    taken = argparse.ArgumentParser(description=__doc__, formatter_class=argparse.RawDescriptionHelpFormatter)
    for name, number in [("lines", 200_000), ("benches", 1000), ("runs", 3)]:
        taken.add_argument(f"--{name}", type=int, default=number, metavar="N")
    taken.add_argument("--program", type=pathlib.Path, default=PROGRAM, metavar="FILE")
    chosen = taken.parse_args()
    if shutil.which(chosen.program) is None:
        sys.exit(f"fleet: there is no {chosen.program}: build it first, as README.md says")
    program = str(chosen.program.resolve())
    with tempfile.TemporaryDirectory(prefix="fleet.") as folder:
        os.chdir(folder)
        measure(chosen, program)
        os.chdir("/")


def measure(chosen, program):
    count = write_stream(chosen.lines, chosen.benches, False)
    write_stream(chosen.lines, chosen.benches, True)
    print(f"{count} lines of {chosen.benches} benches, {FORMULA}; microseconds of the processor a line, the least of {chosen.runs} runs")
    ways = [("one mux", [program, "mux", FORMULA], "lines"), ("in_order", [sys.executable, str(ROOT / "tools" / "in_order")], "numbered")]
    if shutil.which("parallel"):
        for jobs in (1, 2, 4):
            dealt = ["parallel", "--will-cite", "--pipe", "--shard", "1", "--colsep", " ", "--jobs", str(jobs), "--line-buffer", f"{program} mux '{FORMULA}'"]
            ways.append((f"parallel --shard, {jobs} mux", dealt, "lines"))
    for name, words, given in ways:
        print(f"{name:28} {1e6 * least(chosen.runs, lambda: [filtered(words, given)])[0] / count:8.2f}", flush=True)
    if shutil.which("mosquitto") and shutil.which("mosquitto_pub"):
        few = min(count, 20_000)
        for name, seconds in zip(("mosquitto, QoS 2", "mosquitto_pub", "mosquitto_sub"), least(chosen.runs, lambda: over_mosquitto(few))):
            print(f"{name:28} {1e6 * seconds / few:8.2f}", flush=True)


if __name__ == "__main__":
    try:
        main()
    except KeyboardInterrupt:
        sys.exit(130)
