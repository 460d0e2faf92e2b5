"""from_lines: the rows of a running bench."""
import os
import select
import signal
import sys

import frame
from converting import gives, load, outcome_of, refuses

LOG = "0 switch 0\n0 volts 1.5\n1 switch 1\n1 volts 2\n2.5 volts -0.25\n2.5 switch 1\n"


def next_line(child):
    """The next line of a process, which has to come before anything more is written to it."""
    text = b""
    while not text.endswith(b"\n"):
        frame.holds(select.select([child.stdout], [], [], 30)[0], f"no line came within half a minute, behind {text!r}")
        piece = os.read(child.stdout.fileno(), 1)
        frame.holds(piece, f"the output ended, behind {text!r}")
        text += piece
    return text.decode().strip()


def test_each_row_comes_before_the_next_line(bench):
    """Each row is there before the next line is written: nothing waits in a buffer."""
    child = bench.start(sys.executable, "tools/from_lines", "time:1", "switch", "lamp:2")

    def tell(text):
        child.stdin.write(text)
        child.stdin.flush()

    frame.same(next_line(child), "time:1,switch:step,lamp:step:2")
    tell(b"0 switch 0\n0 lamp 0.5\r\n1 switch 1\n")
    frame.same(next_line(child), "0.0,0,0.50")
    for at in range(2, 7):
        tell(f"{at} lamp {at}\n".encode())
        frame.same(next_line(child), f"{at - 1}.0,1,{at - 1 if at > 2 else 0.5:.2f}")
    child.stdin.close()
    frame.same(next_line(child), "6.0,1,6.00")
    frame.same((child.wait(30), child.stderr.read()), (0, b""))


def test_verdicts_come_with_the_rows(bench):
    """With `watch` behind it, a verdict comes while the bench runs."""
    child = bench.start("bash", "-c", f"{sys.executable} tools/from_lines time switch | stl_bench watch 'switch >= 1'")
    for line, verdict in ((b"0 switch 1\n", None), (b"1 switch 1\n", "[0,0] true"), (b"2 switch 0\n", "(0,1] true")):
        child.stdin.write(line)
        child.stdin.flush()
        if verdict:
            frame.same(next_line(child), verdict)
    child.stdin.close()
    frame.same((child.stdout.read(), child.wait(30)), (b"(1,2) true\n[2,2] false\nstart true\n", 0))


def test_takes(bench):
    gives("from_lines", "time:1 switch volts:2", LOG, "time:1,switch:step,volts:step:2 0.0,0,1.50 1.0,1,2.00 2.5,1,-0.25")
    gives("from_lines", "time:1 switch volts:ramp:2", LOG.replace("\n", "\r\n"), "time:1,switch:step,volts:ramp:2 0.0,0,1.50 1.0,1,2.00 2.5,1,-0.25")
    gives("from_lines", "time s=switch", "\n5 switch 1\n \n7 switch 0", "time,s:step 5,1 7,0")
    gives("from_lines", "time a b", "1 a 1\n2 a 2\n3 b 3\n3 a 1\n4 a 5\n", "time,a:step,b:step 3,1,3 4,5,3")
    gives("from_lines", "--from-first --factor time=0.001 time:3 a", "1772445600000 a 1\n1772445600250 a 0\n", "time:3,a:step 0.000,1 0.250,0")
    gives("from_lines", "--round time a", "0 a 0.4\n1.2 a 1.7\n", "time,a:step 0,0 1,2")


def test_refuses(bench):
    refuses("from_lines", [
        ("switch a", "", "the first column is time, or time with decimals, as time:3"),
        ("time", "", "no name after time"),
        ("time a=x b=x", "", "two columns have one source"),
        ("time a", "", "no row: not each name was told"),
        ("time a b", "1 a 0\n2 a 1\n", "no row: not each name was told"),
        ("time a", "1 a\n", "line 1: not TIME NAME VALUE: 1 a"),
        ("time a", "1 a 1\n\n2 a 1 V\n", "line 3: not TIME NAME VALUE: 2 a 1 V"),
        ("time a", "1 b 1\n", "line 1: no such column: b"),
        ("time a", "1 time 1\n", "line 1: no such column: time"),
        ("time a", "x a 1\n", "line 1: time: 'x' is no number"),
        ("time a", "1 a on\n", "line 1: a: 'on' is no number"),
        ("time a", "5 a 1\n4 a 0\n", "line 2: time 4 is before 5"),
        ("time a", "5 a 1.5\n6 a 0\n", "line 1: a: 1.5 has more than 0 decimals (--round rounds it)"),
        ("time a", "5.5 a 1\n6 a 0\n", "line 1: time: 5.5 has more than 0 decimals (--round rounds it)"),
        ("time a", "-5 a 1\n6 a 0\n", "line 1: time -5 is out of range, which is 0 to 4294967295 (--from-first counts from the first row)"),
        ("time a", "5 a 16777217\n6 a 0\n", "line 1: a: 16777217 is out of range, which is -16777216 to 16777216 at 0 decimals"),
        ("time s v:ramp", "0 s 0\n0 v 1\n5 s 1\n9 v 2\n", "line 3: v is a ramp and was not told at 5 (a step keeps its value)"),
        ("time s v:ramp", "0 s 0\n0 v 1\n5 s 1\n", "line 3: v is a ramp and was not told at 5 (a step keeps its value)"),
        ("time a", "0 a 1\n" + "1" * 5_000, "line 2: a line of more than 4096 bytes"),
    ])


def test_what_is_wrong_ends_the_recording(bench):
    """The part before a wrong line is not judged as a shorter recording."""
    bench.tool("from_lines", "time", "a", given="1 a 1\n2 a 1\n1 a 1\n").ended(1, "time,a:step\n1,1\nrefused\n", "from_lines: line 3: time 1 is before 2\n")
    bench.tool("from_lines", "time:9", "a").refused("from_lines: column time:9: after the name stand ramp or step, and then decimals from 0 to 6")
    judged = bench.run("bash", "-c", f"{sys.executable} tools/from_lines time a 2> /dev/null | stl_bench check 'a >= 1'", given="1 a 1\n2 a 1\n1 a 1\n")
    judged.ended(4, "", "line 3: 1 fields\n")
    child = bench.start(sys.executable, "tools/from_lines", "time", "a")
    next_line(child)
    child.stdin.write(b"1 a 1\n2 a 0\n")
    child.stdin.flush()
    frame.same(next_line(child), "1,1")
    child.send_signal(signal.SIGTERM)
    frame.same((child.wait(30), child.stdout.read(), child.stderr.read()), (1, b"refused\n", b"from_lines: interrupted\n"))


@frame.at_most(600)
def test_mutants(bench):
    pieces = [b"\n", b"\r", b" ", b"switch", b"volts", b"9" * 40, b"1e999", b"\xff", b"\x00", b".", b"-", b"\xd9\xa3", b"refused"]
    told_of_mutants_of_a_stream(bench, ["--round", "time:1", "switch", "volts:2"], [LOG, LOG + "3 switch 0\n9 volts 3\n"], pieces)


def told_of_mutants_of_a_stream(bench, words, texts, pieces):
    """As of the other converters; but rows are written before a refusal, behind which stands the line `refused`."""
    taken, module, chosen = 0, load("from_lines"), load("from_lines").words_of(words)
    for number, data in enumerate(frame.mutants([text.encode() for text in texts], pieces, 10_000, 48)):
        try:
            text, line = outcome_of(module, chosen, data)
        except Exception as why:
            raise frame.Failed(f"{type(why).__name__}: {why}\n  for {data!r}") from why
        taken += line is None
        if number % 1000 == 0:
            run = bench.tool("from_lines", *words, given=data)
            frame.same((run.status, run.out.endswith("refused\n"), run.err.count("Traceback")), (0 if line is None else 1, line is not None, 0), f"{data!r}")
        if line is None and taken % 97 == 1:
            bench.run("stl_bench", "check", "true", given=text).ended(0, None)
    frame.holds(50 < taken < 10_000, f"{taken} of 10000 mutated inputs give a recording")
