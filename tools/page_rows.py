"""The rows of a recording, and of the lines of `table`, that a page keeps and draws. The script page stands on this.

Of up to EXACT_ROWS rows all are kept. More are cut into stretches, each of which lies in one column of the picture of the whole recording
and has only so many rows; of a stretch are kept its first and its last row, and those with the least and the greatest value of a drawn
column. So the picture of the whole recording is that of all rows, and of a part of it the range of what is left out is known.
"""
import bisect
import math

import requirements

WIDE = 900
EXACT_ROWS, STRETCHES = 20_000, 14_400
PART = 1 << 22
LEFT_OUT = ".."


def number(text):
    """A number for the eye: of a decimal, a fraction or an infinite one. The script makes the same float."""
    above, slash, below = text.partition("/")
    return float(above) / float(below) if slash else float(text)


def stretches(times, place, most):
    """Where rows are cut into stretches: each lies in one column of the picture, and has at most so many rows."""
    begin = 0
    while begin < len(times):
        end = bisect.bisect_right(times, place(times[begin]), begin, min(begin + most, len(times)), key=place)
        yield begin, end
        begin = end


class Kept:
    """Of rows that come one after the other those that the page keeps, and after which of them some are left out."""

    def __init__(self, low, high, most):
        self.low, self.high, self.most = low, high, most
        self.rows, self.left_out, self.count, self.last = [], [], 0, -1

    def place(self, time):
        """The column of the whole picture at which the text of a time falls."""
        return math.floor((number(time) - self.low) / (self.high - self.low) * WIDE)

    def add(self, columns, extremes):
        """Takes the next rows by their columns; `extremes` tells which rows of a stretch have a least or a greatest value."""
        count = len(columns[0])
        chosen = range(count)
        if self.most is not None:
            chosen = []
            for begin, end in stretches(columns[0], self.place, self.most):
                chosen += sorted({begin, end - 1, *(extremes(begin, end) if end - begin > 2 else ())})
        for at in chosen:
            if self.rows:
                self.left_out.append(self.count + at != self.last + 1)
            self.rows.append([column[at] for column in columns])
            self.last = self.count + at
        self.count += count

    def lines(self):
        """The rows as lines, with a line `..` for what is left out."""
        found = []
        for row, gap in zip(self.rows, [*self.left_out, False]):
            found.append(",".join(row))
            if gap:
                found.append(LEFT_OUT)
        return found


def first_of(lists, pick):
    """The place of the first least or greatest number of several lists beside each other: in which list, and where."""
    values = [pick(numbers) for numbers in lists]
    value = pick(values)
    return min((numbers.index(value), k) for k, numbers in enumerate(lists) if values[k] == value)


def parts_of(file, fields):
    """The lines of a file of bytes, some at a time, each time as texts by their columns. No line has a space."""
    while part := file.read(PART) + file.readline():
        cells = ",".join(part.decode("ascii").split()).split(",")
        if cells != [""]:
            yield [cells[at::fields] for at in range(fields)]


class Recording:
    """What the page keeps and draws of a recording: all columns where every row is kept, and else the named ones."""

    def __init__(self, path, named):
        with requirements.opened(path) as file:
            rows = sum(part.count(b"\n") for part in iter(lambda: file.read(PART), b""))
            file.seek(0)
            head = next(line for line in file if line.strip()).decode("ascii").strip().split(",")
            self.begin(head, rows, named)
            self.last, self.kept = requirements.last_time(path), None
            for columns in parts_of(file, len(head)):
                self.take([columns[at] for at in self.places])
        self.times = [float(row[0]) for row in self.kept.rows]
        self.columns = {}
        for at, field in enumerate(self.head[1:], 1):
            name, *marks = field.split(":")
            self.columns[name] = ("step" if "step" in marks else "ramp", [float(row[at]) for row in self.kept.rows])

    def begin(self, head, rows, named):
        """Takes the header. `rows` is at least the number of rows."""
        names = [field.partition(":")[0] for field in head]
        self.names = names[1:]
        self.most = None if rows <= EXACT_ROWS else rows // STRETCHES + 1
        self.places = [at for at, name in enumerate(names) if self.most is None or at == 0 or name in named]
        self.head = [head[at] for at in self.places]

    def take(self, columns):
        """Takes the next rows of the file."""
        if self.kept is None:
            self.first = columns[0][0]
            self.low = float(self.first)
            self.high = float(self.last) if float(self.last) > self.low else self.low + 1
            self.kept = Kept(self.low, self.high, self.most)
        values = [list(map(float, column)) for column in columns[1:]] if self.most else []
        self.kept.add(columns, lambda begin, end: extremes_of(values, begin, end))

    def line_of(self, name):
        """The corners of a column's line. After left out rows no corner is made up."""
        mode, values = self.columns[name]
        if mode == "ramp":
            return list(zip(self.times, values))
        corners = [(self.times[0], values[0])]
        for time, before, value, gap in zip(self.times[1:], values, values[1:], self.kept.left_out):
            corners += [(time, before), (time, value)] if value != before and not gap else [(time, value)]
        return corners


def extremes_of(columns, begin, end):
    """The rows of a stretch at which a column is least or greatest."""
    for values in columns:
        part = values[begin:end]
        yield begin + part.index(min(part))
        yield begin + part.index(max(part))


class Margins:
    """What the page keeps and draws of the lines of `table`, which are taken as the program writes them."""

    def __init__(self, recording):
        self.kept = Kept(recording.low, recording.high, recording.most)
        self.waiting, self.reached = [], None

    def take(self, columns):
        """Takes the next knots. They wait until there are so many that not all are kept."""
        self.waiting.append(columns)
        if self.kept.most is not None and self.kept.count + sum(len(part[0]) for part in self.waiting) > EXACT_ROWS:
            for part in self.waiting:
                self.thin(part)
            self.waiting = []

    def end(self):
        """Keeps what waits: there are no more."""
        if self.kept.count == 0:
            self.kept.most = None
        for part in self.waiting:
            self.kept.add(part, None)

    def thin(self, columns):
        """Keeps of some knots. At a knot three numbers meet: what the piece before comes to, its own, and what the piece after begins with."""
        _, own, after, reached = columns
        numbers = [number(text) for text in own]
        before = [self.reached or own[0], *reached[:-1]]
        self.reached = reached[-1]
        lists = [
            [value if text == of else number(text) for text, of, value in zip(before, own, numbers)], numbers,
            [value if text == of or not text else number(text) for text, of, value in zip(after, own, numbers)],
        ]

        def extremes(begin, end):
            for pick in (min, max):
                at, which = first_of([some[begin:end] for some in lists], pick)
                yield begin + at
                if which == 0 and at:
                    yield begin + at - 1

        self.kept.add(columns, extremes)

    def line(self):
        """The corners of the margin."""
        corners, rows = [], self.kept.rows
        for row, after, gap in zip(rows, [*rows[1:], None], [*self.kept.left_out, True]):
            time = number(row[0])
            corners.append((time, number(row[1])))
            if row[2]:
                corners.append((time, number(row[2])))
            if not gap:
                corners.append((number(after[0]), number(row[3])))
        return corners
