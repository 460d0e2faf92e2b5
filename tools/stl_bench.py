"""stl_bench from Python, for notebooks: stl_bench.check("x >= 2.5", {"time": [0, 10], "x": [0, 7]}).spans[1].begin is Fraction(25, 7).

A recording is a text, the path of a file, an open file, a dict of lists or a pandas frame; a text of one line is a path, since no
recording has one line. Of the last two, the columns named in `step` keep their value up to the next row, and a float stands for its
shortest decimal. A status from 2 to 9 raises the class of its number.
"""
import collections
import contextlib
import decimal
import fractions
import functools
import os
import re
import subprocess
import threading

PROGRAM = "stl_bench"
EXACT = decimal.Context(prec=400, traps=[decimal.InvalidOperation, decimal.Inexact])
NAME = re.compile(r"[A-Za-z_][A-Za-z0-9_.]{0,63}")
TIME = r"[0-9]{1,99}(?:/[1-9][0-9]{0,98})?"
MARGIN = rf"-?(?:inf|{TIME})"
TRUTHS = {"True": "1", "False": "0"}
START = {"start true": True, "start false": False}
LINE = re.compile(rf"(?:(.+) (true|false) on )?([\[(])({TIME})(?:,({TIME}))?([\])])(?: (true|false)| ({MARGIN})(?: -> ({MARGIN}))?)?")

Answer = collections.namedtuple("Answer", "start spans")
Early = collections.namedtuple("Early", "decided start")  # the row's time, or None where the end decided
Span = collections.namedtuple("Span", "begin end ends value atom")  # ends as "[)"; value is a truth, and of robust the margins at both ends


class Refused(Exception):
    """What the program answers instead of a verdict: its line, and its status."""
    status = None


class Words(Refused): status = 2
class Formula(Refused): status = 3
class Recording(Refused): status = 4
class Input(Refused): status = 5
class Output(Refused): status = 6
class Memory(Refused): status = 7
class Wide(Refused): status = 8
class Cells(Refused): status = 9


FAULTS = {fault.status: fault for fault in Refused.__subclasses__()}


def exact(place, value):
    """A value as a decimal."""
    text = "a number"
    try:
        text = str(value)
        found = EXACT.create_decimal(TRUTHS.get(text, text)).normalize(EXACT)
        if found.is_finite() and -6 <= found.as_tuple().exponent <= 20:
            return found
    except (ArithmeticError, ValueError):  # of a whole number with thousands of digits Python makes no text
        pass
    raise Recording(f"{place}: {text[:40]!r} is no number with at most 6 decimals")


def decimals(name, values):
    """The values of a column as decimals."""
    values = values.to_numpy() if hasattr(values, "to_numpy") else values  # a frame would widen its short floats
    if not hasattr(values, "__len__"):
        raise Recording(f"column {name}: {type(values).__name__} is no list of numbers")
    return [exact(f"{name}[{row}]", value) for row, value in enumerate(values)]


def recording(data, step=()):
    """The text of a recording from a dict of lists or a frame: `time`, then the others in their order."""
    step = [step] if isinstance(step, str) else list(step)
    names = ["time", *(name for name in data if name != "time")]
    bad = [name for name in names if not isinstance(name, str) or not NAME.fullmatch(name)]
    lacking = [name for name in ["time", *step] if name not in data]
    if bad or lacking or "time" in step:
        raise Recording(f"column {bad[0]!r}: no name for a column" if bad else f"there is no column {lacking[0]}" if lacking else "time is no step")
    columns = {name: decimals(name, data[name]) for name in names}
    if len({len(values) for values in columns.values()}) > 1:
        raise Recording("the columns differ in length")
    places = {name: max([0, *(-value.as_tuple().exponent for value in values)]) for name, values in columns.items()}
    head = [name + ":step" * (name in step) + f":{places[name]}" * (places[name] > 0) for name in columns]
    return "\n".join([",".join(head), *(",".join(f"{value:f}" for value in row) for row in zip(*columns.values())), ""])


def parts(data, step=()):
    """The text of a recording in parts."""
    if isinstance(data, os.PathLike) or isinstance(data, str) and data and "\n" not in data:
        with open(data, "rb") as file:
            yield from parts(file)
    elif isinstance(data, (str, bytes)):
        yield data
    elif hasattr(data, "read"):
        while part := data.read(1 << 16):
            yield part
    elif hasattr(data, "keys"):
        yield recording(data, step)
    else:
        raise Recording(f"{type(data).__name__} is no recording")


def feed(run, given, failed):
    """Gives a program its input. Where `given` fails the program is ended, so that it judges no shorter recording."""
    try:
        for part in given:
            run.stdin.write(part.encode() if isinstance(part, str) else part)
            run.stdin.flush()
        run.stdin.close()
    except BaseException as why:
        failed.append(why)
        with contextlib.suppress(subprocess.TimeoutExpired):  # a program that refuses reads no more, and is given time to say why
            run.wait(5 if isinstance(why, BrokenPipeError) else 0)
        run.kill()


def lines(command, formula, given):
    """The program's lines as they come. Where nobody wants more of them, it is ended."""
    if "\0" in formula:
        raise Formula("formula: it has a byte 0")
    pipes, failed = dict.fromkeys(["stdin", "stdout", "stderr"], subprocess.PIPE), []
    run = subprocess.Popen([PROGRAM, command, formula], **pipes)
    threading.Thread(target=feed, args=[run, given, failed], daemon=True).start()
    try:
        yield from (line.decode().rstrip("\n") for line in run.stdout)
        fault, status = run.stderr.read().decode(errors="replace").strip(), run.wait()
    finally:
        run.kill()
        for pipe in (run.stdout, run.stderr, run.stdin):
            with contextlib.suppress(OSError, ValueError):
                pipe.close()
        run.wait()
    if failed and not isinstance(failed[0], BrokenPipeError):
        raise failed[0]
    if status not in (0, 1):
        raise FAULTS.get(status, Refused)(fault or f"ended with {status}")
    if failed:
        raise failed[0]


@functools.lru_cache(maxsize=64)
def number(text):
    """A time or a margin; most stand on two lines that follow one another."""
    return float(text) if text.endswith("inf") else fractions.Fraction(*map(int, text.split("/")))


def span(line):
    """The span of a line of `check`, `watch`, `explain` or `robust`."""
    found = LINE.fullmatch(line)
    if not found or bool(found[2]) + bool(found[7]) + bool(found[8]) != 1:
        raise Refused(f"no line of a span: {line[:80]!r}")
    atom, told, left, begin, end, right, truth, margin, last = found.groups()
    value = (number(margin), number(last or margin)) if margin else (told or truth) == "true"
    return Span(number(begin), number(end or begin), left + right, value, atom)


def unless(answered, command):
    """Refuses a run with a status of an answer that wrote none: it is of another program."""
    if not answered:
        raise Refused(f"{PROGRAM} {command} wrote no answer")


def check(formula, data, step=(), command="check"):
    """The truth at the start, and the spans of one truth."""
    told = list(lines(command, formula, parts(data, step)))
    start = next((START[line] for line in told if line in START), None)
    unless(told and (start is not None or command == "robust"), command)
    return Answer(start, [span(line) for line in told if line not in START])


def explain(formula, data, step=()):
    """The truth at the start, and where it is false the spans on which comparisons force that, each with its atom."""
    return check(formula, data, step, "explain")


def robust(formula, data, step=()):
    """The margins: at a time, or from which limit to which between two times."""
    return check(formula, data, step, "robust").spans


def early(formula, data, step=()):
    """The time of the first row that settles the truth at the start, and this truth."""
    told = list(lines("early", formula, parts(data, step)))
    unless(len(told) == 2 and told[1] in START, "early")
    row, start = told
    return Early(None if row == "decided at end" else number(row.removeprefix("decided at ")), START[start])


def watch(formula, rows):
    """The spans as they are known, while `rows` gives the lines of a recording; at last the truth at the start."""
    start = None
    for line in lines("watch", formula, (f"{row}\n" for row in rows)):
        start = START.get(line)
        yield span(line) if start is None else start
    unless(start is not None, "watch")
