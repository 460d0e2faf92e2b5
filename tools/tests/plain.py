"""The meaning of formulas over recordings, once more and as plainly as can be: what the tests of the commands compare the program with.

Time is cut into cells: with D a number that every change of an atom times D is whole, cell 2k is the time start + k / D, and cell 2k + 1 the
open gap behind it. Bounds are whole ticks, so the truth of each node is one in each cell, and each operator is evaluated cell by cell as its
definition reads. Nothing here is quick, and nothing is shared with the program or with the monitor in bench/.
"""
from fractions import Fraction
from math import lcm

COLUMNS = {"x": "ramp", "y": "step", "z": "ramp", "w": "step"}
AHEAD, BEHIND = ("eventually", "always"), ("once", "historically")
EACH = ("always", "historically")
CONNECTIVES = ("and", "or", "implies")
RELATIONS = {">=": lambda e: e >= 0, ">": lambda e: e > 0, "<=": lambda e: e <= 0, "<": lambda e: e < 0}


class Node:
    """A node of a formula: its kind, the nodes below it, and its bounds in ticks, with whether each is in; or an atom's terms and constant."""

    def __init__(self, kind, below=(), low=0, high=0, ends=(True, True), terms=(), constant=0):
        self.kind, self.below, self.low, self.high, self.ends, self.terms, self.constant = kind, below, low, high, ends, terms, constant

    def text(self):
        """The formula; each operand that is an operator in parentheses."""
        if self.kind in RELATIONS:
            parts = [f"{'-' if c < 0 else '+'} {'' if abs(c) == 1 else f'{abs(c)}*'}{name}" for c, name in self.terms]
            return f"{' '.join(parts).removeprefix('+ ').replace('- ', '-', parts[0][0] == '-')} {self.kind} {self.constant}"
        if not self.below:
            return self.kind
        first = f"({self.below[0].text()})"
        if self.kind == "not":
            return f"not {first}"
        if self.kind in CONNECTIVES:
            return f"{first} {self.kind} ({self.below[1].text()})"
        high = "inf" if self.high is None else self.high
        bound = f"{'[' if self.ends[0] else ']'}{self.low},{high}{']' if self.ends[1] else '['}"
        if self.kind in ("until", "since"):
            return f"{first} {self.kind}{bound} ({self.below[1].text()})"
        return f"{self.kind}{bound} {first}"

    def nodes(self):
        """All nodes, each behind those below it."""
        return [found for below in self.below for found in below.nodes()] + [self]

    def horizon(self):
        """How far ahead the formula looks."""
        below = [some.horizon() for some in self.below]
        if self.kind in (*BEHIND, "since"):
            return max([below[0], below[-1] - self.low] if self.kind == "since" else [0, below[0] - self.low])
        return max(below, default=0) + (self.high if self.kind in (*AHEAD, "until") else 0)


class Recording:
    """Rows, as a time in ticks and a whole value for each column."""

    def __init__(self, rows):
        self.rows = rows
        self.start, self.stop = rows[0][0], rows[-1][0]

    def text(self):
        header = ",".join(["time", *(name if kind == "ramp" else f"{name}:step" for name, kind in COLUMNS.items())])
        return "".join(f"{line}\n" for line in [header, *(",".join(map(str, row)) for row in self.rows)])

    def sums(self, atom):
        """What an atom compares with 0 at each row, and just before the next one."""
        places = {name: k for k, name in enumerate(COLUMNS, 1)}
        found = []
        for row, after in zip(self.rows, [*self.rows[1:], self.rows[-1]]):
            here = sum(c * row[places[name]] for c, name in atom.terms) - atom.constant
            end = sum(c * (after if COLUMNS[name] == "ramp" else row)[places[name]] for c, name in atom.terms) - atom.constant
            found.append((row[0], here, end))
        return found


def crossings(recording, formula):
    """The times between rows at which an atom's sum is 0."""
    found = set()
    for atom in (node for node in formula.nodes() if node.kind in RELATIONS):
        sums = recording.sums(atom)
        for (begin, here, end), (until, _, _) in zip(sums, sums[1:]):
            if here * end < 0:
                found.add(begin + Fraction(here * (until - begin), here - end))
    return found


class Cells:
    """A recording cut into cells for a formula, which may go on behind its end."""

    def __init__(self, recording, formula, further=0):
        self.recording = recording
        self.parts = lcm(1, *(time.denominator for time in crossings(recording, formula)))
        self.last = 2 * self.parts * (recording.stop - recording.start)
        self.all = self.last + 2 * self.parts * further

    def time(self, cell):
        """The time of an even cell, or the begin of a gap."""
        return self.recording.start + Fraction(cell // 2, self.parts)

    def atom(self, node):
        """The truth of an atom in each cell of the recording."""
        found, sums = [], self.recording.sums(node)
        for (begin, here, end), (until, _, _) in zip(sums, sums[1:]):
            for cell in range(2 * self.parts * (until - begin)):
                along = Fraction(cell, 2 * self.parts * (until - begin))
                found.append(RELATIONS[node.kind](here if cell == 0 else here + (end - here) * along))
        return [*found, RELATIONS[node.kind](sums[-1][1])]

    def window(self, node, cell):
        """The first and the last cell that the window from a cell meets, before it is met with the recording."""
        low, high = 2 * self.parts * node.low, None if node.high is None else 2 * self.parts * node.high
        if cell % 2 and node.low == node.high and not all(node.ends):
            return 1, 0
        inset = (0, 0) if cell % 2 else tuple(0 if inside else 1 for inside in node.ends)
        if node.kind in (*AHEAD, "until"):
            return cell + low + inset[0], cell + high - inset[1]
        return (0 if high is None else cell - high + inset[1]), cell - low - inset[0]


def evaluate(cells, formula):
    """The truth of each node in each cell, by the definition, as lists in the order of `nodes`."""
    found = []
    for node in formula.nodes():
        below = [found[formula.nodes().index(some)] for some in node.below]
        found.append([truth(cells, node, below, cell) for cell in range(cells.last + 1)] if node.kind not in RELATIONS else cells.atom(node))
    return found


def truth(cells, node, below, cell):
    """The truth of a node in a cell, by those of the nodes below it."""
    if not below:
        return node.kind == "true"
    if node.kind == "not":
        return not below[0][cell]
    if node.kind in CONNECTIVES:
        p, q = below[0][cell], below[1][cell]
        return p and q if node.kind == "and" else p or q if node.kind == "or" else not p or q
    first, last = cells.window(node, cell)
    window = range(max(first, 0), min(last, cells.last) + 1)
    if node.kind in ("until", "since"):
        p, q = below
        return any(q[u] and all(p[min(u, cell) : max(u, cell) + 1]) for u in window)
    return (all if node.kind in EACH else any)(below[0][u] for u in window)


def settled(cells, formula, known=None):
    """For each node and cell whether the rows settle it true, false, or neither: True, False, None. Cells go on behind the recording's end,
    where no atom is settled; only a time up to the end, or up to the cell itself, is sure to be one of the recording. With `known`, the cells
    of each atom by its place, atoms are known there alone."""
    found, nodes = [], formula.nodes()
    for place, node in enumerate(nodes):
        if node.kind in RELATIONS:
            here = cells.atom(node) + [None] * (cells.all - cells.last)
            found.append(here if known is None else [value if cell in known[place] else None for cell, value in enumerate(here)])
            continue
        below = [found[nodes.index(some)] for some in node.below]
        found.append([settled_in(cells, node, below, cell) for cell in range(cells.all + 1)])
    return found


def no(value):
    return None if value is None else not value


def some_true(values):
    """Of three-valued truths that all have to be known to be false: true, false, or None."""
    values = list(values)
    return True if True in values else None if None in values else False


def settled_in(cells, node, below, cell):
    """Whether the rows settle a node in a cell, by the nodes below it."""
    if not below:
        return node.kind == "true"
    if node.kind == "not":
        return no(below[0][cell])
    if node.kind in CONNECTIVES:
        p, q = below[0][cell], below[1][cell]
        if node.kind == "and":
            return no(some_true([no(p), no(q)]))
        return some_true([p if node.kind == "or" else no(p), q])
    first, last = cells.window(node, cell)
    window = range(max(first, 0), min(last, cells.all) + 1)
    # behind the end and ahead of the cell no time is sure; in a gap of its own a window that leaves out its begin has only later times
    own = 0 if node.kind in AHEAD and cell % 2 and node.low == 0 and not node.ends[0] else 1
    sure = range(window.start, min(window.stop, max(cells.last + 1, cell + own)))
    if node.kind in ("until", "since"):
        p, q = below
        between = {u: no(some_true(no(v) for v in p[min(u, cell) : max(u, cell) + 1])) for u in window}
        if any(q[u] is True and between[u] is True for u in sure):
            return True
        return False if all(q[u] is False or between[u] is False for u in window) else None
    value = below[0] if node.kind not in EACH else [no(some) for some in below[0]]
    found = True if any(value[u] is True for u in sure) else False if all(value[u] is False for u in window) else None
    return found if node.kind not in EACH else no(found)


def spans(cells, values, first, last):
    """The longest stretches of one truth from a cell to another: their first and last cells, and the truth."""
    found = []
    for cell in range(first, last + 1):
        if found and found[-1][2] == values[cell]:
            found[-1][1] = cell
        else:
            found.append([cell, cell, values[cell]])
    return found


def span_text(cells, first, last):
    """A stretch as the program writes it."""
    begin, end = cells.time(first), cells.time(last + last % 2)
    return f"{'(' if first % 2 else '['}{begin},{end}{')' if last % 2 else ']'}"


def verdict_lines(cells, values, first, last):
    return [f"{span_text(cells, begin, end)} {'true' if value else 'false'}" for begin, end, value in spans(cells, values, first, last)]


def cuts(cells, formula, truths):
    """For each node the even cells at which an explanation cuts time: the ends of the recording and where its own truth changes, but for the
    root, whose one cut is the start; and each cut of the node above, as it stands and moved by the bounds, where the operator has them."""
    nodes = formula.nodes()
    found = [set() for _ in nodes]
    found[-1].add(0)
    for place in reversed(range(len(nodes))):
        node, values = nodes[place], truths[place]
        if place + 1 < len(nodes):
            found[place] |= {0, cells.last}
            found[place] |= {cell for cell in range(0, cells.last + 1, 2) if len(set(values[max(cell - 1, 0) : cell + 2])) > 1}
        ahead = 1 if node.kind in (*AHEAD, "until") else -1
        bounds = [bound for bound in (node.low, node.high) if bound is not None] if node.kind in (*AHEAD, *BEHIND, "until", "since") else [0]
        moves = {2 * cells.parts * ahead * bound for bound in bounds} | ({0} if node.kind in ("until", "since") else set())
        for below in node.below:
            found[nodes.index(below)] |= {cell + move for cell in found[place] for move in moves if 0 <= cell + move <= cells.last}
    return found


def explanation(cells, formula):
    """The lines of an explanation: of all cells of the atoms, from the last on, each is dropped without which the formula is still known to be
    false at the start by those that are left; what is left, with neighbours joined."""
    nodes, truths = formula.nodes(), evaluate(cells, formula)
    kept = []
    for place, some in enumerate(cuts(cells, formula, truths)):
        if nodes[place].kind in RELATIONS:
            times = sorted(some)
            kept += [(place, cell, cell) for cell in times] + [(place, a + 1, b - 1) for a, b in zip(times, times[1:])]
    kept.sort()
    known = {place: set() for place in range(len(nodes))}
    for place, first, last in kept:
        known[place] |= set(range(first, last + 1))
    for stretch in reversed(list(kept)):
        place, first, last = stretch
        known[place] -= set(range(first, last + 1))
        if settled(cells, formula, known)[-1][0] is False:
            kept.remove(stretch)
        else:
            known[place] |= set(range(first, last + 1))
    joined = []
    for place, first, last in kept:
        if joined and joined[-1][0] == place and joined[-1][2] + 1 == first and truths[place][joined[-1][1]] == truths[place][first]:
            joined[-1][2] = last
        else:
            joined.append([place, first, last])
    return [f"{nodes[place].text()} {'true' if truths[place][first] else 'false'} on {span_text(cells, first, last)}" for place, first, last in joined]
