"""Tests of tools/to_plot."""
import subprocess
import sys

import frame

NEITHER = "to_plot: neither verdicts of `check` nor a table of `table`"
TABLE = "time,margin,from,to\n0,-5/2,-5/2,1/3\n10/3,1,inf,inf\n5,inf,,\n"


def test_a_table_has_a_gap_where_the_margin_jumps(bench):
    bench.tool("to_plot", given=TABLE).ended(0, "0 -2.5\n\n0 -2.5\n3.33333333 0.333333333\n\n3.33333333 1\n\n\n\n\n\n\n")


def test_verdicts_are_spans_with_a_number_for_their_truth(bench):
    bench.tool("to_plot", given="[0,6/5) true\n[6/5,2] false\nstart true\n").ended(0, "0 1.2 1\n1.2 2 0\n")


def test_what_the_program_writes_is_drawn(bench):
    recording = (frame.ROOT / "recordings" / "rise.csv").read_text(encoding="utf-8")
    for command, first in (("check", "0 3.57142857 0"), ("table", "0 -2.5")):
        said = bench.run("stl_bench", command, "x >= 2.5", given=recording).out
        frame.same(bench.tool("to_plot", given=said).ended(0, None).out.splitlines()[0], first)


def test_texts_that_are_neither_are_refused(bench):
    for text in ("", "\n", "start true\n", "time,margin\n0,1\n", "time,margin,from,to\n0\n", "time,margin,from,to\n0,x,,\n", "[0,1/0) true\n", b"\xff\xfe"):
        bench.tool("to_plot", given=text).refused(NEITHER)
    for text in frame.mutants([TABLE.encode(), b"[0,6/5) true\n[6/5,2] false\nstart true\n"], [b",", b"/", b"0", b"inf"], 20, 5):
        bench.tool("to_plot", given=text).one_line((0, 1))


def test_words_and_outputs_that_fail(bench):
    bench.tool("to_plot", "verdicts.txt").refused("usage: tools/to_plot < TEXT")
    frame.holds(bench.tool("to_plot", "--help").ended(0, None).out.startswith("Turns what"), "what it does")
    with open("/dev/full", "wb") as full:
        done = subprocess.run([sys.executable, "tools/to_plot"], input=TABLE.encode(), stdout=full, stderr=subprocess.PIPE, timeout=60)
    frame.same((done.returncode, done.stderr), (1, b"to_plot: No space left on device\n"))
