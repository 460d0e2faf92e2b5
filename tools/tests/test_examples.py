"""Tests of tools/example, tools/picture and what the other scripts say where no program is built. Debian: gnuplot-nox, make."""
import os
import re
import shutil

import frame

MAKE = ["make", "--file", "tools/example/Makefile", "recordings=rlc_damped"]
BROKEN = "formula=always[0,10] out <= 0.5"
LINE = re.compile(r"<path stroke='rgb\( *31, *95, *168\)' +d='([^']*)'")


def judge_all(bench, text):
    """A run of the example that judges a list."""
    return bench.run("tools/example/judge_all", given=text)


@frame.needs("make")
def test_make_judges_again_where_the_formula_changes(bench):
    bench.run(*MAKE).ended(0, None)
    kept = os.stat("verdicts/rlc_damped.txt").st_mtime_ns
    bench.run(*MAKE).ended(0, None)
    frame.same(os.stat("verdicts/rlc_damped.txt").st_mtime_ns, kept, "the time of a verdict that is kept")
    run = bench.run(*MAKE, BROKEN)
    frame.same((run.status, run.out), (2, "rlc_damped: status 1\n"))
    frame.holds(not os.path.exists("verdicts/rlc_damped.txt"), "the verdict of another formula is kept")
    frame.same(bench.run(*MAKE, BROKEN).out, "rlc_damped: status 1\n")
    bench.run(*MAKE).ended(0, None)


@frame.needs("make")
def test_make_judges_again_where_the_recording_changes(bench):
    os.unlink("recordings")
    os.mkdir("recordings")
    shutil.copy(frame.ROOT / "recordings" / "rlc_damped.csv", "recordings")
    bench.run(*MAKE).ended(0, None)
    shutil.copy(frame.ROOT / "recordings" / "rlc_ringing.csv", "recordings/rlc_damped.csv")
    frame.same(bench.run(*MAKE).out, "rlc_damped: status 1\n")


def test_judge_all_takes_any_name_and_passes_over_what_is_no_recording(bench):
    shutil.copy("recordings/door.csv", "door of 3 May.csv")
    holds, fails = "always[0,100] (turning >= 1 implies locked >= 1)", "always[0,100] turning >= 1"
    judge_all(bench, f"# a list\n\n  \nrecordings/door.csv {holds}\n  door of 3 May.csv: {holds}").ended(
        0, "holds    recordings/door.csv\nholds    door of 3 May.csv\n")
    judge_all(bench, f"door of 3 May.csv: {fails}\nrecordings/door.csv   {holds}\n").ended(1, "fails    door of 3 May.csv\nholds    recordings/door.csv\n")
    judge_all(bench, "").ended(0, "")


def test_judge_all_tells_what_was_not_judged(bench):
    judge_all(bench, "missing.csv true\nrecordings/door.csv false\n").ended(
        2, "unjudged missing.csv, which cannot be read\nfails    recordings/door.csv\n")
    judge_all(bench, "recordings/door.csv x >= 1\n").ended(2, "unjudged recordings/door.csv, status 4\n", "line 1: unknown column x\n")
    judge_all(bench, "recordings/door.csv\n").one_line([2])
    with_bash = bench.run("bash", "tools/example/judge_all", given="missing.csv true\n")
    with_bash.ended(2, "unjudged missing.csv, which cannot be read\n")


def corners(bench, field, recording):
    """The corners of the line that a picture draws of a field."""
    bench.run("tools/picture", recording, field, "true", "some.svg").ended(0, "")
    with open("some.svg", encoding="utf-8") as file:
        numbers = re.findall(r"[ML]?([0-9.]+),([0-9.]+)", LINE.search(file.read())[1])
    return [(float(x), float(y)) for x, y in numbers]


@frame.needs("gnuplot")
def test_pictures_draw_steps_as_steps_and_ramps_as_ramps(bench):
    bench.write("both.csv", "time,s:step,r\n0,0,0\n4,5,5\n8,1,1\n10,1,1\n")
    steps, ramps = corners(bench, "s:step", "both.csv"), corners(bench, "r", "both.csv")
    for (x, y), (u, v) in zip(steps, steps[1:]):
        frame.holds(x == u or y == v, f"a step column goes from {(x, y)} to {(u, v)}")
    frame.holds(any(x != u and y != v for (x, y), (u, v) in zip(ramps, ramps[1:])), f"a ramp is drawn as {ramps}")


@frame.needs("gnuplot")
def test_pictures_are_drawn_or_refused_with_a_line(bench):
    late = "recordings/braking_late.csv"
    bench.run("tools/picture", late, "speed:1", "always[0,9] (brake >= 1 implies speed <= 10)", "some.png").ended(0, "")
    with open("some.png", "rb") as file:
        frame.same(file.read(4), b"\x89PNG")
    for words, line in [
        ((late, "speed", "true", "a.png"), "picture: the header has no field speed"),
        (("missing.csv", "speed:1", "true", "a.png"), "picture: missing.csv cannot be read"),
        ((late, "speed:1", "x >= 1", "a.png"), "line 1: unknown column x"),
        ((late, "speed:1", "x =", "a.png"), "formula at 2: bad byte"),
        ((late,), "usage: tools/picture RECORDING FIELD FORMULA PICTURE"),
    ]:
        bench.run("tools/picture", *words).refused(line, 2)
    bench.run("tools/picture", late, "speed:1", "true", "no/such/folder.png").one_line([2])
    frame.holds(not os.path.exists("a.png"), "a refusal leaves a picture")


def test_no_program_is_one_line(bench):
    for script in ("tools/read_back", "tools/hostile", "tools/try_guide", "bench/bench.py", "bench/compare.py", "bench/explain.py", "bench/mux.py", "bench/worst.py", "bench/fleet.py", "bench/soak.py"):
        run = bench.run("python3", frame.ROOT / script, "--program", "nowhere").one_line([1])
        frame.same((run.out + run.err).count("\n"), 1, script)
