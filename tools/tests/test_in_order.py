"""Tests of tools/in_order."""
import io
import os
import random
import select
import signal
import sys

import frame

FORMULA = "eventually[0,2] x >= 5"


def streams(seed, benches=5, rows=12):
    """The lines of some benches, as TAG NUMBER LINE between each other at random, and as lists by their tags."""
    dice = random.Random(seed)
    lines = {f"b{k}": ["time:1,x", *(f"{n * 0.5:.1f},{dice.randint(0, 9)}" for n in range(rows)), "."] for k in range(benches)}
    left = {tag: list(enumerate(some, 1)) for tag, some in lines.items()}
    found = []
    while left:
        tag = dice.choice(sorted(left))
        number, line = left[tag].pop(0)
        found.append(f"{tag} {number} {line}\n")
        if not left[tag]:
            del left[tag]
    return found, lines


def test_a_clean_stream_is_passed_on(bench):
    given, lines = streams(1)
    run = bench.tool("in_order", given="".join(given))
    run.ended(0, "".join(f"{tag} {line}\n" for tag, _, line in (text.rstrip("\n").split(" ", 2) for text in given)))
    frame.same(frame.by_tag(run.out), lines)
    frame.same(bench.tool("in_order", given="".join(given).replace("\n", "\r\n")).ended(0, None).out, run.out)
    bench.tool("in_order").ended(0, "")


def test_lines_that_come_twice(bench):
    """At once, and after others, and all that came so far again after each line."""
    given, _ = streams(2, 3, 6)
    clean = bench.tool("in_order", given="".join(given)).out
    frame.same(bench.tool("in_order", given="".join(line * 2 for line in given)).ended(0, None).out, clean)
    frame.same(bench.tool("in_order", given="".join(given + given)).ended(0, None).out, clean)
    again = "".join("".join(given[: at + 1]) for at in range(len(given)))
    frame.same(bench.tool("in_order", given=again).ended(0, None).out, clean)


def test_a_gap(bench):
    """At the header, in the middle, before the end and at the end; the bench beside it is told what it is told alone."""
    whole = ["a 1 time,x", "a 2 0,5", "a 3 2,7", "a 4 ."]
    beside = ["b 1 time,x", "b 2 0,5", "b 3 ."]
    alone = bench.run("stl_bench", "mux", "x >= 6", given="b time,x\nb 0,5\nb .\n").out
    told = {1: ["line 1: field 1: bad name"], 2: ["line 2: 1 fields"], 3: ["[0,0] false", "line 3: 1 fields"], 4: ["[0,0] false", "(0,1) false", "[1,2] true", "line 4: 1 fields"]}
    for lost in range(1, 5):
        given = [line for number, line in enumerate(whole, 1) if number != lost] + beside
        run = bench.tool("in_order", given="\n".join(given) + "\n")
        frame.same((run.status, run.err), (0, f"in_order: a: line {lost} is missing\n"))
        frame.same([line for line in run.out.splitlines() if line.startswith("a")], [line[0] + line[3:] for line in whole[: lost - 1]] + ["a missing"])
        judged = bench.run("stl_bench", "mux", "x >= 6", given=run.out)
        frame.same(frame.by_tag(judged.out), {"a": told[lost], **frame.by_tag(alone)})


def test_each_line_is_passed_on_before_the_next_is_read(bench):
    run = bench.start(sys.executable, "tools/in_order", bufsize=0)
    for number, line in enumerate(["time,x", "0,1", "1,2", "."], 1):
        run.stdin.write(f"a {number} {line}\n".encode())
        frame.holds(select.select([run.stdout], [], [], 20)[0], f"line {number} was not passed on")
        frame.same(os.read(run.stdout.fileno(), 1000), f"a {line}\n".encode())
    run.stdin.close()
    frame.same((run.stdout.read(), run.stderr.read(), run.wait(20)), (b"", b"", 0))


REFUSED = [
    (b"a time,x\n", "not TAG NUMBER LINE: b'a time,x\\n'"), (b"\n", "not TAG NUMBER LINE: b'\\n'"), (b"a 0 x\n", "not TAG NUMBER LINE: b'a 0 x\\n'"),
    (b"a 01 x\n", "not TAG NUMBER LINE: b'a 01 x\\n'"), (b"a  1 x\n", "not TAG NUMBER LINE: b'a  1 x\\n'"), (b"a-b 1 x\n", "not TAG NUMBER LINE: b'a-b 1 x\\n'"),
    (b"a2345678901234567 1 x\n", "not TAG NUMBER LINE: b'a2345678901234567 1 x\\n'"), (b"a 1234567890123456789 x\n", "not TAG NUMBER LINE: b'a 1234567890123456789 x\\n'"),
    (b"\xc3\xa4 1 x\n", "not TAG NUMBER LINE: b'\\xc3\\xa4 1 x\\n'"), (b"a 1 " + b"x" * 4097 + b"\n", "more than 4096 bytes after TAG NUMBER"),
    (b"a" * 16 + b" " + b"9" * 18 + b" " + b"x" * 9999 + b"\n", "more than 4096 bytes after TAG NUMBER"), (b"x" * 9999, "not TAG NUMBER LINE: b'" + "x" * 60 + "'"),
    (b"c 3 1,", "the input ends in its middle"),
]


def test_lines_that_are_refused(bench):
    """What came before is passed on, and recordings that have not ended are ended as such."""
    before = b"b 1 time,x\nb 2 .\nc 1 time,x\nc 2 0,1\n"
    for text, why in REFUSED:
        bench.tool("in_order", given=before + text).ended(1, "b time,x\nb .\nc time,x\nc 0,1\nc missing\n", f"in_order: c: line 3 is missing\nin_order: line 5: {why}\n")
    longest = b"a" * 16 + b" 1 " + b"x" * 4096
    run = bench.tool("in_order", given=longest + b"\r\n" + b"a" * 16 + b" 2 .\n")
    run.ended(0, "a" * 16 + " " + "x" * 4096 + "\n" + "a" * 16 + " .\n")


def test_words_are_not_taken(bench):
    bench.tool("in_order", "carried.log").refused("usage: tools/in_order < LINES")
    frame.holds(bench.tool("in_order", "--help").ended(0, None).out.startswith("Turns lines"), "what it does")


def test_inputs_and_outputs_that_fail(bench):
    with open("/dev/full", "wb") as full:
        run = bench.start(sys.executable, "tools/in_order", stdout=full)
        frame.same((run.communicate(b"a 1 time,x\n", 20)[1], run.returncode), (b"in_order: a: line 2 is missing\nin_order: No space left on device\n", 1))
    run = bench.start(sys.executable, "tools/in_order")
    run.stdout.close()
    run.stdin.write(b"a 1 time,x\na 2 0,1\n")
    run.stdin.close()
    frame.same((run.stderr.read(), run.wait(20)), (b"in_order: a: line 2 is missing\nin_order: Broken pipe\n", 1))
    for closing in ("<&-", ">&-"):
        bench.run("sh", "-c", f"{sys.executable} tools/in_order {closing}").refused("in_order: the input or the output is closed")


def test_an_interrupt_leaves_no_shorter_recording(bench):
    for number in (signal.SIGINT, signal.SIGTERM):
        run = bench.start(sys.executable, "tools/in_order", bufsize=0)
        run.stdin.write(b"a 1 time,x\na 2 0,1\nb 1 time,x\nb 2 .\n")
        seen = b""
        while seen.count(b"\n") < 4:
            frame.holds(select.select([run.stdout], [], [], 20)[0], "the lines were not passed on")
            seen += os.read(run.stdout.fileno(), 1000)
        os.kill(run.pid, number)
        frame.same((run.stdout.read(), run.stderr.read(), run.wait(20)), (b"a missing\n", b"in_order: a: line 3 is missing\n", 130))


def test_carriers_that_lose_and_double(bench):
    """Each bench is told what it is told on a clean stream, or the beginning of that and a missing line; never a start of a shorter recording."""
    dice = random.Random(3)
    lost = 0
    for seed in range(25):
        given, lines = streams(seed, 4, 8)
        clean = frame.by_tag(bench.run("stl_bench", "mux", FORMULA, given="".join(f"{tag} {line}\n" for tag, some in lines.items() for line in some)).out)
        carried = [line for line in given for _ in range(dice.choice([0, 1, 1, 1, 1, 1, 1, 1, 1, 2, 3]) if seed % 2 else dice.choice([1, 2]))]
        told = frame.by_tag(bench.run("stl_bench", "mux", FORMULA, given=bench.tool("in_order", given="".join(carried)).out).out)
        for tag, some in told.items():
            if some != clean[tag]:
                lost += 1
                frame.holds(some[-1].startswith("line ") and some[:-1] == clean[tag][: len(some) - 1], f"seed {seed}: {tag} was told {some} and not {clean[tag]}")
            frame.holds(seed % 2 or some == clean[tag], f"seed {seed}: {tag} lost nothing, and was told {some}")
    frame.holds(lost > 10, "hardly a line was lost: this shows little")


def test_mutated_streams(bench):
    """10,000 streams are passed on or refused in a line; each recording begins as it should and ends by its end or as one of which a line is missing."""
    in_order = frame.load("in_order")
    texts = ["".join(streams(seed, 2, 3)[0]).encode() for seed in range(20)]
    pieces = [b"\n", b" ", b"b0 1 ", b"b1 2 0,1\n", b".", b".\n", b"\0", b"\xff", b"\r\n", b"99999999999999999999", b"b0 5 .\n", b"x" * 5000]
    sys.stderr = io.StringIO()
    whole = refused = 0
    try:
        for text in frame.mutants(texts, pieces, 10_000, 11):
            out = []
            try:
                in_order.pass_on(io.BytesIO(text), out.append)
                whole += 1
            except in_order.Refused as why:
                frame.holds(str(why).startswith("line ") and "\n" not in str(why), f"{text}: {why}")
                refused += 1
            came = {}
            for line in text.split(b"\n"):
                parts = line.removesuffix(b"\r").split(b" ", 2)
                if len(parts) > 1:
                    came.setdefault((parts[0], parts[1]), set()).add(parts[2] if len(parts) > 2 else b"")
            recordings = {}
            for line in b"".join(out).split(b"\n")[:-1]:
                tag, _, rest = line.partition(b" ")
                recordings.setdefault(tag, []).append(rest)
            for tag, some in recordings.items():
                frame.holds(some[-1] in (b".", b"missing"), f"{text}: {tag} was passed {some}")
                for number, line in enumerate(some[:-1] if some[-1] == b"missing" else some, 1):
                    frame.holds(line in came[tag, b"%d" % number], f"{text}: line {number} of {tag} is {line}")
    finally:
        sys.stderr = sys.__stderr__
    frame.holds(whole > 1000 and refused > 1000, f"{whole} were passed on and {refused} refused: the mutants show little")
