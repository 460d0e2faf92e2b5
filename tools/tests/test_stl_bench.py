"""Tests of tools/stl_bench.py. Debian: python3-pandas, python3-matplotlib."""
import decimal
import fractions
import os
import pathlib
import random
import subprocess
import sys
import threading
import time

import frame

sys.path.insert(0, str(frame.TOOLS))

import stl_bench  # noqa: E402

F = fractions.Fraction
RAMP = {"time": [0, 10], "x": [0, 7]}


def refused(kind, line, call, *words, **named):
    """Fails where a call does not raise just this class with this line."""
    try:
        found = call(*words, **named)
        found = found if not hasattr(found, "__next__") else list(found)
    except stl_bench.Refused as why:
        frame.same((type(why).__name__, str(why)), (kind.__name__, line), "what is raised")
        return why
    raise frame.Failed(f"this is not refused, but gives {found}, and has to be refused with {line}")


def test_answers(bench):
    span = stl_bench.Span
    spans = [span(F(0), F(25, 7), "[)", False, None), span(F(25, 7), F(10), "[]", True, None)]
    frame.same(stl_bench.check("x >= 2.5", RAMP), (False, spans))
    frame.same(stl_bench.robust("x >= 2.5", RAMP), [span(F(0), F(0), "[]", (F(-5, 2), F(-5, 2)), None), span(F(0), F(10), "()", (F(-5, 2), F(9, 2)), None),
                                                    span(F(10), F(10), "[]", (F(9, 2), F(9, 2)), None)])
    frame.same(stl_bench.explain("x >= 2.5", RAMP), (False, [span(F(0), F(0), "[]", False, "x >= 2.5")]))
    frame.same(stl_bench.explain("x >= 0", RAMP), (True, []))
    frame.same(stl_bench.early("eventually[0,20] x >= 5", {"time": [0, 8, 10], "x": [0, 8, 8]}), (F(8), True))
    frame.same(stl_bench.early("always[0,20] x >= 0", RAMP), (None, True))
    frame.same([type(value) for value in stl_bench.robust("true", RAMP)[1].value], [float, float])
    frame.same(list(stl_bench.watch("x >= 2.5", ["time,x", "0,0", "10,7"])),
               [span(F(0), F(0), "[]", False, None), span(F(0), F(25, 7), "()", False, None), span(F(25, 7), F(10), "[]", True, None), False])


def test_a_column_may_be_named_start(bench):
    """Its lines in an explanation are not the line of the start."""
    found = stl_bench.explain("start >= 1", {"time": [0, 1], "start": [0, 0]})
    frame.same((found.start, [span.atom for span in found.spans]), (False, ["start >= 1"]))


def test_every_way_to_give_a_recording(bench):
    path = pathlib.Path(frame.ROOT, "recordings", "braking.csv")
    wanted = stl_bench.check("brake >= 1 implies speed <= 10", path)
    frame.same([str(span.begin) for span in wanted.spans], ["0", "1", "6/5"])
    with open(path, "rb") as in_bytes, open(path, encoding="utf-8") as in_text:
        lists = {"brake": [False, True, True, False], "time": [0, 1.0, "1.3", decimal.Decimal("2.00")], "speed": (30, 30, 0, -0.0)}
        for data in (str(path), path.read_text(), path.read_bytes(), in_bytes, in_text, lists):
            frame.same(stl_bench.check("brake >= 1 implies speed <= 10", data, step="brake"), wanted, f"the answer for {type(data)}")
    frame.same(stl_bench.recording(lists, ["brake"]), "time:1,brake:step,speed\n0,0,30\n1,1,30\n1.3,1,0\n2,0,-0\n")
    frame.same(stl_bench.recording({"time": [10, 1e6], "x": [1e-6, 1.5e3]}), "time,x:6\n10,0.000001\n1000000,1500\n")


def test_recordings_that_are_refused(bench):
    Recording = stl_bench.Recording
    for value in (float("nan"), float("inf"), None, "", "a\nb", 1e-7, 3 * 0.1, 1e30, "1" * 500, decimal.Decimal("0." + "1" + "0" * 50 + "1"), 1j, [1], {}, "1/2", b"1"):
        refused(Recording, f"x[1]: {str(value)[:40]!r} is no number with at most 6 decimals", stl_bench.check, "x >= 0", {"time": [0, 1], "x": [0, value]})
    refused(Recording, "x[0]: 'a number' is no number with at most 6 decimals", stl_bench.check, "x >= 0", {"time": [0], "x": [10**5000]})
    refused(Recording, "column x: int is no list of numbers", stl_bench.check, "x >= 0", {"time": [0], "x": 3})
    for name in ("x,y", "x:step", "x\n0", "", "1x", "x" * 65, "\u00e4", "x ", "x\n"):
        refused(Recording, f"column {name!r}: no name for a column", stl_bench.check, "true", {"time": [0], name: [1]})
    refused(Recording, "column 3: no name for a column", stl_bench.check, "true", {"time": [0], 3: [1]})
    refused(Recording, "there is no column time", stl_bench.check, "true", {"x": [1]})
    refused(Recording, "there is no column y", stl_bench.check, "true", RAMP, step=["x", "y"])
    refused(Recording, "time is no step", stl_bench.check, "true", RAMP, step=["time"])
    refused(Recording, "the columns differ in length", stl_bench.check, "true", {"time": [0, 1], "x": [1]})
    for data, kind in ((5, "int"), (None, "NoneType"), (["time"], "list")):
        refused(Recording, f"{kind} is no recording", stl_bench.check, "true", data)
    refused(Recording, "line 1: unknown column x", stl_bench.check, "x >= 2.5", {"time": [0, 10], "y": [0, 7]})
    refused(Recording, "line 3: time not rising", stl_bench.check, "x >= 2.5", {"time": [0, 0], "x": [0, 7]})


def test_a_class_for_each_status(bench):
    wide = "time,x,y\n0,1048576,-1\n1048575,0,1048575\n2097152,1048575,0\n"
    many = "time,x:step\n" + "".join(f"{n},{n % 2}\n" for n in range(40001))
    found = [
        refused(stl_bench.Words, bench.run("stl_bench", "judge", "true").err.strip(), stl_bench.check, "true", "time\n0\n", command="judge"),
        refused(stl_bench.Formula, "formula at 0: unbounded future", stl_bench.robust, "eventually x >= 1", RAMP),
        refused(stl_bench.Recording, "line 0: no header", stl_bench.explain, "true", ""),
        refused(stl_bench.Wide, "wide: node 4 needs denominator 2305841909703114752", stl_bench.robust, "(always[0,1000] eventually[0,1048575] x >= 0) and y >= 0", wide),
        refused(stl_bench.Cells, "too many cells: 80002", stl_bench.explain, "always[0,100000] x >= 1", many),
    ]
    frame.same([why.status for why in found], [2, 3, 4, 8, 9])
    refused(stl_bench.Formula, "formula: it has a byte 0", stl_bench.check, "x\0", RAMP)
    for status, name in enumerate("Words Formula Recording Input Output Memory Wide Cells".split(), 2):
        stl_bench.PROGRAM = bench.script("program", f"#!/bin/sh\ncat > /dev/null\necho fault {status} >&2\nexit {status}\n")
        for call in (stl_bench.check, stl_bench.robust, stl_bench.explain, stl_bench.early):
            frame.same(refused(getattr(stl_bench, name), f"fault {status}", call, "true", RAMP).status, status)
    stl_bench.PROGRAM = bench.script("program", "#!/bin/sh\nexit 77\n")
    refused(stl_bench.Refused, "ended with 77", stl_bench.check, "true", RAMP)
    stl_bench.PROGRAM = bench.script("program", "#!/bin/sh\ncat > /dev/null\n")
    for call in (stl_bench.check, stl_bench.robust, stl_bench.explain, stl_bench.early):
        refused(stl_bench.Refused, f"{stl_bench.PROGRAM} {call.__name__} wrote no answer", call, "true", RAMP)
    refused(stl_bench.Refused, f"{stl_bench.PROGRAM} watch wrote no answer", lambda: list(stl_bench.watch("true", ["time", "0"])))
    stl_bench.PROGRAM = "no_such_program"
    try:
        stl_bench.check("true", RAMP)
        raise frame.Failed("a program that is not there is no error")
    except FileNotFoundError:
        pass
    stl_bench.PROGRAM = "stl_bench"
    for missing in ("missing", pathlib.Path("missing"), "time,x"):
        try:
            stl_bench.check("true", missing)
            raise frame.Failed("a recording that is not there is no error")
        except FileNotFoundError as why:
            frame.same(str(why.filename), str(missing))


def test_a_refusal_while_the_input_is_still_written(bench):
    """The program reads no more, and the thread that feeds it has a broken pipe; what is raised is the refusal."""
    rows = "time,x\n" + "5,1\n" * 900_000
    for _ in range(5):
        refused(stl_bench.Recording, "line 3: time not rising", stl_bench.check, "x >= 0", rows)
        refused(stl_bench.Recording, "line 3: time not rising", stl_bench.watch, "x >= 0", rows.splitlines())


def children():
    """The processes that this one started and that still go on."""
    found = pathlib.Path(f"/proc/self/task/{os.getpid()}/children")
    return found.read_text().split() if found.exists() else []


def test_an_iterator_that_fails(bench):
    """The program is ended and the error raised: no shorter recording is judged."""
    def rows():
        yield "time,x"
        yield "0,1"
        yield "1,2"
        raise OSError("the bench is gone")
    seen = []
    try:
        for told in stl_bench.watch("x >= 0", rows()):
            seen.append(told)
        raise frame.Failed("the error of the iterator is not raised")
    except OSError as why:
        frame.same(str(why), "the bench is gone")
    frame.holds(True not in seen and False not in seen, f"a shorter recording was judged: {seen}")
    frame.same(children(), [], "the programs that go on")


def test_a_generator_that_is_left_early(bench):
    """The program ends, and the thread that fed it too."""
    def rows():
        yield "time,x"
        for n in range(10**9):
            yield f"{n},1"
    for told in stl_bench.watch("x >= 0", rows()):
        frame.same(told.value, True)
        break
    del told
    for _ in range(400):
        if threading.active_count() == 1 and not children():
            return
        time.sleep(0.05)
    raise frame.Failed(f"{threading.active_count() - 1} threads and the programs {children()} go on")


def test_rows_are_told_while_they_come(bench):
    """Each row is given only when what the row before decided was told."""
    ready = threading.Semaphore(1)
    def rows():
        yield "time,x"
        for n in range(4):
            frame.holds(ready.acquire(timeout=20), f"row {n} was not told")
            yield f"{n},{n % 2}"
    told = stl_bench.watch("x >= 0", rows())
    for n in range(4):
        frame.same(next(told).end, n)
        ready.release()
    frame.same(list(told), [True])


PANDAS = """
import numpy, pandas, stl_bench
times = numpy.arange(4) / 10
frame = pandas.DataFrame({"x": numpy.array([1, 2, 3, 4], "int16"), "time": times, "on": times > 0.15, "y": numpy.array([0.1, 0.2, 0.3, 0.4], "float32")})
print(stl_bench.recording(frame, ["on"]), end="")
print([str(span.begin) for span in stl_bench.check("on >= 1 and y >= 0.3", frame, "on").spans])
for bad in (frame.assign(time=numpy.arange(4) * 0.1), frame.assign(y=[1, numpy.nan, 2, 3]), frame.assign(y=pandas.array([1, None, 2, 3], "Int64")),
            frame.assign(time=pandas.to_datetime([0, 1, 2, 3])), frame.rename(columns={"y": "y (m)"}), pandas.concat([frame, frame], axis=1), frame[["x"]], frame.iloc[:0],
            pandas.DataFrame(numpy.zeros((2, 2)))):
    try:
        print("taken", stl_bench.check("true", bad))
    except stl_bench.Recording as why:
        print(why)
"""


@frame.needs(modules=["numpy", "pandas"])
def test_frames(bench):
    number = "is no number with at most 6 decimals"
    bench.run(frame.python_with("numpy", "pandas"), "-c", PANDAS).ended(0, "\n".join([
        "time:1,x,on:step,y:1", "0,1,0,0.1", "0.1,2,0,0.2", "0.2,3,1,0.3", "0.3,4,1,0.4", "['0', '1/5']", f"time[3]: '0.30000000000000004' {number}",
        f"y[1]: 'nan' {number}", f"y[1]: '<NA>' {number}", f"time[0]: '1970-01-01T00:00:00.000000000' {number}", "column 'y (m)': no name for a column",
        f"time[0]: '[0. 0.]' {number}", "there is no column time",
        "line 1: no rows", "column 0: no name for a column", ""]))


@frame.needs(modules=["matplotlib"])
def test_the_example_that_plots(bench):
    python = frame.python_with("matplotlib")
    for recording, column, formula in (("rlc_ringing", "out", "out >= 0.98 and out <= 1.02"), ("braking", "brake", "brake >= 0.5"), ("door", "locked", "true")):
        bench.run(python, "tools/example/plot_verdicts.py", f"recordings/{recording}.csv", column, formula, "picture.png").ended(0, "")
        picture = pathlib.Path("picture.png").read_bytes()
        frame.holds(picture.startswith(b"\x89PNG") and len(picture) > 5000, f"{recording}: no picture")


def test_mutated_lines(bench):
    """10,000 lines are spans or refused, and what is a span says what the line says."""
    texts = [b"[0,25/7) false", b"[5/2,10] true", b"in >= 0.5 true on [21/40,21/40]", b"2*x - y < 3 false on (83/50,577/295)", b"[0] -5/2", b"(0,10) -5/2 -> 9/2", b"(0,1) -inf -> inf"]
    pieces = [b"/0", b"/", b" -> ", b"inf", b"-", b" true", b" false", b" on ", b"[", b")", b",", b"\n", b"9" * 5000, b"\xff", "\u0663".encode()]
    read = bad = 0
    for text in frame.mutants(texts, pieces, 10_000, 5):
        line = text.decode(errors="replace")
        try:
            span = stl_bench.span(line)
        except stl_bench.Refused as why:
            frame.holds("\n" not in str(why), f"{line!r}: {why}")
            bad += 1
            continue
        read += 1
        values = [str(value).replace("/1 ", " ") for value in span.value] if isinstance(span.value, tuple) else [str(span.value).lower()]
        frame.holds(type(span.begin) is F and all(value in line or F(value) for value in values if "inf" not in value) and (span.atom or "") in line, f"{line!r}: {span}")
    frame.holds(read > 300 and bad > 1000, f"{read} were read and {bad} refused: the mutants show little")


VALUES = [0, 1, 2.5, -3, True, "4", "0.1", "1e3", "1e-9", 1e22, float("nan"), float("inf"), None, "x", "1_0", " 2 ", b"3", [], (), 0.1 + 0.2, 7j, object(), F(1, 2), decimal.Decimal("1e999999"),
          decimal.Decimal("NaN"), decimal.Decimal("sNaN"), 10**400, "\u0663", "0x10", "\0", "1\n2", -0.0, 1e-6]


def test_mutated_recordings(bench):
    """10,000 dicts of lists are a text whose rows are numbers as they were given, or refused in a line."""
    dice, made, bad = random.Random(6), 0, 0
    for _ in range(10_000):
        few = VALUES[:8] if dice.random() < 0.7 else VALUES
        names = dice.sample(["x", "y_1", "a.b", "z:step", "", "time ", 7, ("a", "b"), None], dice.randint(0, 2) if dice.random() < 0.3 else 0) + dice.sample(["x2", "x3"], dice.randint(0, 2))
        length = dice.randint(0, 4)
        data = {name: [dice.choice(few) for _ in range(length + (dice.random() < 0.05))] for name in [*(["time"] if dice.random() < 0.95 else []), *names]}
        step = dice.choice([(), (), "x2", ["x3"], ["time"], ["no"]])
        try:
            text = stl_bench.recording(data, step)
        except stl_bench.Recording as why:
            frame.holds("\n" not in str(why) and "Traceback" not in str(why), f"{data}: {why}")
            bad += 1
            continue
        made += 1
        head, *rows = text.split("\n")[:-1]
        columns = [data["time"], *(values for name, values in data.items() if name != "time")]
        frame.same((len(rows), head.count(",")), (len(data["time"]), len(data) - 1), f"{data}")
        for row, values in zip(rows, zip(*columns)):
            frame.same([decimal.Decimal(field) for field in row.split(",")], [decimal.Decimal(1 if value is True else str(value)) for value in values], f"{data}")
    frame.holds(made > 1000 and bad > 1000, f"{made} were made and {bad} refused: the mutants show little")


def test_mutated_texts(bench):
    """Texts of recordings, through the program: an answer or one of the classes."""
    texts = [pathlib.Path(frame.ROOT, "recordings", name).read_bytes() for name in ("braking.csv", "rise.csv", "door.csv")]
    ended = {}
    for text in frame.mutants(texts, [b",", b"\n", b"\0", b"\xff", b"-", b"time", b"9999999999", b":step", b":7"], 150, 4, most=1):
        try:
            stl_bench.check("true", text)
            ended["answer"] = ended.get("answer", 0) + 1
        except stl_bench.Recording as why:
            frame.holds(str(why).startswith("line ") and "\n" not in str(why), f"{text}: {why}")
            ended["refused"] = ended.get("refused", 0) + 1
    frame.holds(min(ended.get("answer", 0), ended.get("refused", 0)) > 10, f"{ended}: the mutants show little")


def test_from_another_thread_and_many_at_once(bench):
    found = []
    threads = [threading.Thread(target=lambda: found.append(stl_bench.check("x >= 2.5", RAMP))) for _ in range(16)]
    for thread in threads:
        thread.start()
    for thread in threads:
        thread.join(30)
    frame.same(found, [stl_bench.check("x >= 2.5", RAMP)] * 16)


def test_nothing_is_written_when_a_notebook_imports_it(bench):
    done = subprocess.run([sys.executable, "-c", "import stl_bench; print(sorted(stl_bench.FAULTS))"], capture_output=True, timeout=60)
    frame.same((done.stdout, done.stderr), (b"[2, 3, 4, 5, 6, 7, 8, 9]\n", b""))
