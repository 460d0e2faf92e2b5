"""Rows for the trace format of this repository: decimals as they are written, and a refusal for what the format cannot hold.

The scripts from_ngspice, from_sigrok, from_csv, from_vcd, from_can and from_lines stand on this. But for from_lines, which follows a
running bench, nothing is written before the last row was judged, so a refused table leaves no shorter recording behind: what reads
the empty output says that it has no header.

Each script has a function `words_of`, which reads its words, and a function `convert`, which of these and the input, as bytes, gives
the rows, or refuses them; `run` does the rest.
"""
import argparse
import decimal
import io
import os
import re
import signal
import sys
from decimal import Decimal

MOST_DECIMALS = 6
MOST_COLUMNS = 64
MOST_ROWS = 1_000_000
MOST_TIME = 4_294_967_295
MOST_VALUE = 16_777_216
LONGEST_LINE = 4_096
LONGEST_MESSAGE = 800
MOST_FIELDS = 20_000
NAME = re.compile(r"[A-Za-z_][A-Za-z0-9_.]{0,63}\Z")
NUMBER = re.compile(r"[+-]?([0-9]+\.?[0-9]*|\.[0-9]+)([eE][+-]?[0-9]{1,3})?\Z")
CONTROL = re.compile(r"[\x00-\x1f\x7f-\x9f\u2028\u2029\ud800-\udfff]")

# Sums and products of any two decimals, with all their digits. A quotient is to be of the usual context, which ends.
EXACT = decimal.Context(prec=decimal.MAX_PREC, Emax=decimal.MAX_EMAX, Emin=decimal.MIN_EMIN)
decimal.getcontext().prec = 80


class Refused(Exception):
    """What the format cannot hold, and where it stands."""


class Column:
    """A column of the trace, from the words NAME[:MODE][:DECIMALS][=SOURCE], as in `speed:1=Speed (km/h)`."""

    def __init__(self, words):
        head, _, source = words.partition("=")
        name, *marks = head.split(":")
        self.name = name
        self.source = source or name
        self.mode = marks.pop(0) if marks and marks[0] in ("ramp", "step") else None
        self.decimals = int(marks.pop(0)) if marks and re.fullmatch("[0-6]", marks[0]) else 0
        self.unit = Decimal(1).scaleb(-self.decimals)
        self.zero = Decimal(0).scaleb(-self.decimals)
        self.factor, self.scaled = Decimal(1), False
        self.moved = Decimal(0)
        if not NAME.match(name):
            raise Refused(f"column {words}: a name begins with a letter or _, and has letters, digits, _ and . (at most 64)")
        if marks:
            raise Refused(f"column {words}: after the name stand ramp or step, and then decimals from 0 to {MOST_DECIMALS}")

    def field(self):
        """The column's field of the header."""
        mode = f":{self.mode}" if self.mode else ""
        return f"{self.name}{mode}:{self.decimals}" if self.decimals else self.name + mode

    def number(self, place, value, rounding):
        """The number with the column's decimals; one that has more is rounded where that is allowed, and else refused."""
        if self.scaled:
            value = EXACT.multiply(value, self.factor)
        if value.adjusted() > 20 and value:
            raise Refused(f"{place}: {self.name}: {short(value)} is out of range")
        near = value.quantize(self.unit)
        if near != value:
            if not rounding:
                raise Refused(f"{place}: {self.name}: {short(value)} has more than {self.decimals} decimals (--round rounds it)")
            self.moved = max(self.moved, abs(near - value))
        return near or self.zero  # a zero has no sign


def short(value):
    """A number for a message, cut where it has many digits."""
    text = f"{value:f}" if abs(value.adjusted()) < 20 else f"{value:.3e}"
    return text if len(text) <= 20 else text[:20] + ".."


def shown(text):
    """A text of the input for a message, in quotes, cut where it is long."""
    return repr(text if len(text) <= 60 else text[:60] + "..")


def listed(names):
    """Names for a message, and not all where there are many."""
    return ", ".join(names[:20]) + (", .." if len(names) > 20 else "")


def decimal_of(place, name, text, advice=None):
    """The decimal that a field of a table holds; `advice` makes of a text that is none what a refusal says more."""
    text = text.strip()
    if NUMBER.match(text) is None:
        more = advice(text) if advice else ""
        raise Refused(f"{place}: {name}: {shown(text)} is no number" + (f" ({more})" if more else ""))
    return Decimal(text)


class Rows:
    """The rows so far, and what the next one has to keep."""

    def __init__(self, columns, rounding=False, from_first=False):
        self.time, self.columns = columns[0], columns[1:]
        self.rounding, self.from_first = rounding, from_first
        self.first = self.last = None
        self.fields = [{} for _ in self.columns]  # of each column, the fields of values that came before
        self.most_time = Decimal(MOST_TIME).scaleb(-self.time.decimals)
        self.finest = max((c.decimals for c in self.columns), default=0)
        self.most_value = Decimal(MOST_VALUE).scaleb(-self.finest)
        self.count = 0
        self.lines = [",".join(c.field() for c in columns)]
        self.notes = []
        names = [c.name for c in columns]
        if self.time.name != "time" or self.time.mode:
            raise Refused("the first column is time, or time with decimals, as time:3")
        if len(set(names)) < len(names):
            raise Refused("two columns have one name")
        if len(self.columns) > MOST_COLUMNS:
            raise Refused(f"{len(self.columns)} columns beside time, and {MOST_COLUMNS} fit")
        if len(self.lines[0]) > LONGEST_LINE:
            raise Refused(f"a header of {len(self.lines[0])} bytes, and {LONGEST_LINE} fit")

    def moment(self, place, value):
        """The time of the next row, as its field."""
        if self.first is None:
            self.first = value
        if self.from_first:
            value = EXACT.subtract(value, self.first)
        time = self.time.number(place, value, self.rounding)
        if not 0 <= time <= self.most_time:
            raise Refused(f"{place}: time {time:f} is out of range, which is 0 to {self.most_time:f} (--from-first counts from the first row)")
        if self.last is not None and time <= self.last:
            raise Refused(f"{place}: time {time:f} is not after {self.last:f}, the time of the row before")
        self.last = time
        return str(time)

    def field(self, at, place, value):
        """A column's field for a value that has none yet."""
        column, known = self.columns[at], self.fields[at]
        number = column.number(place, value, self.rounding)
        if not -self.most_value <= number <= self.most_value:
            most = f"{self.most_value:f}"
            raise Refused(f"{place}: {column.name}: {number:f} is out of range, which is -{most} to {most} at {self.finest} decimals")
        if len(known) >= MOST_FIELDS:
            known.clear()
        text = known[value] = str(number)
        return text

    def line(self, place, time, values):
        """The line of the next row, or a refusal of it."""
        if self.count >= MOST_ROWS:
            raise Refused(f"{place}: more than {MOST_ROWS} rows")
        moment = self.moment(place, time)
        fields = [known.get(value) for known, value in zip(self.fields, values)]
        if None in fields:
            fields = [text or self.field(at, place, value) for at, (text, value) in enumerate(zip(fields, values))]
        line = ",".join([moment, *fields])
        if len(line) > LONGEST_LINE:
            raise Refused(f"{place}: a line of {len(line)} bytes, and {LONGEST_LINE} fit")
        self.count += 1
        return line

    def add(self, place, time, values):
        """Adds a row, or refuses it."""
        self.lines.append(self.line(place, time, values))

    def text(self):
        """The trace."""
        if not self.count:
            raise Refused("no rows")
        return "\n".join(self.lines) + "\n"

    def told(self):
        """What the error stream is told beside: what a script noted, and how far numbers were rounded."""
        moved = [column for column in [self.time, *self.columns] if column.moved]
        return self.notes + [f"{column.name}: rounded by at most {short(column.moved.normalize())}" for column in moved]


def options(about):
    """The words that all scripts take."""
    words = argparse.ArgumentParser(description=about, formatter_class=argparse.RawDescriptionHelpFormatter)
    words.add_argument("columns", nargs="+", metavar="COLUMN", help="NAME[:step][:DECIMALS][=SOURCE], time first")
    words.add_argument("--round", action="store_true", help="round to the column's decimals, and say by how much")
    words.add_argument("--from-first", action="store_true", help="count times from the first row")
    words.add_argument("--factor", action="append", default=[], metavar="NAME=K", help="multiply a column by K, as time=1000")
    return words


def columns_of(chosen):
    """The columns that the words name, with their factors."""
    columns = [Column(words) for words in chosen.columns]
    by_name = {column.name: column for column in columns}
    for words in chosen.factor:
        name, _, factor = words.partition("=")
        if name not in by_name:
            raise Refused(f"--factor {words}: there is no such column")
        by_name[name].factor, by_name[name].scaled = decimal_of("--factor", name, factor), True
        if not by_name[name].factor:
            raise Refused(f"--factor {words}: every value would be 0")
    return columns


def take_steps(columns, why):
    """Makes each column beside time a step; one that is to be a ramp is refused, with the reason."""
    for column in columns[1:]:
        if column.mode == "ramp":
            raise Refused(f"column {column.name}: {why}, so it is a step")
        column.mode = "step"
    if len(columns) == 1:
        raise Refused("no column after time")


def places_of(columns, head, advice=None):
    """Where each column stands in a table with this head; `advice` makes what a refusal says more."""
    names = [name.strip() for name in head]
    for column in columns:
        if names.count(column.source) != 1:
            more = advice() if advice else ""
            found = f"the table has {names.count(column.source)} columns {column.source!r}; it has {listed(names) or 'nothing'}"
            raise Refused(found + (f" ({more})" if more else ""))
    return [names.index(column.source) for column in columns]


def cells(place, row, head):
    """The cells of a row that is as wide as the head."""
    if len(row) != len(head):
        raise Refused(f"{place}: {len(row)} fields, and the head has {len(head)}")
    return row


def text_of(source, encoding="utf-8"):
    """The lines of an input. A byte that is no text is kept as it is: it matters in chosen columns alone, and is no number there."""
    return io.TextIOWrapper(source, encoding=encoding, errors="surrogateescape")


def one_line(text):
    """A message as one line: control characters as Python writes them, and cut where it is long."""
    text = CONTROL.sub(lambda found: ascii(found[0])[1:-1], text)
    return text if len(text) <= LONGEST_MESSAGE else text[:LONGEST_MESSAGE] + ".."


def put(text):
    """Writes a text to the output, past Python's buffer, which would tell of an output that fails once more at the end."""
    if sys.stdout is None:
        raise Refused("the output is closed")
    rest = memoryview(text.encode())
    try:
        while rest:
            rest = rest[os.write(1, rest) :]
    except OSError as why:
        raise Refused(f"output: {why.strerror}") from None


def source_of():
    """The input, as bytes."""
    if sys.stdin is None:
        raise Refused("the input is closed")
    return sys.stdin.buffer


def usual_signals():
    """Lets an interrupt, and an output that nobody reads any more, end the script without a word, as they end most programs."""
    signal.signal(signal.SIGPIPE, signal.SIG_DFL)
    if signal.getsignal(signal.SIGINT) is signal.default_int_handler:
        signal.signal(signal.SIGINT, signal.SIG_DFL)


def run(tool, words_of, convert):
    """Runs a script; a refusal is one line, and status 1."""
    usual_signals()
    try:
        rows = refusing_input(convert, words_of(sys.argv[1:]), source_of())
        put(rows.text())
        for note in rows.told():
            print(f"{tool}: {note}", file=sys.stderr)
    except Refused as why:
        sys.exit(f"{tool}: {one_line(str(why))}")


def refusing_input(convert, chosen, source):
    """What a script makes of its input; one that cannot be read is refused."""
    try:
        return convert(chosen, source)
    except OSError as why:
        raise Refused(f"input: {why.strerror or why}") from None
    except UnicodeError as why:
        raise Refused(f"input: it is no {why.encoding}" if isinstance(why, UnicodeDecodeError) else f"input: {why}") from None
