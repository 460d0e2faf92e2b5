"""Tests of the program's commands beside a plain model of what formulas mean (plain.py), over cases that dice make."""
import random
import re
from fractions import Fraction

import frame
import plain

LINE = re.compile(r"[\[(]([0-9/]+)(?:,([0-9/]+))?[\])] (\S+)(?: -> (\S+))?")


def atom(dice, constants):
    """A comparison of one or two columns; where constants are given, with one of these, which is then used up."""
    names = dice.sample(sorted(plain.COLUMNS), dice.choice([1, 1, 1, 2]))
    constant = constants.pop() if constants is not None else dice.randint(-3, 3)
    return plain.Node(dice.choice(sorted(plain.RELATIONS)), terms=[(dice.choice([1, 1, 2, -1]), name) for name in names], constant=constant)


def formula(dice, depth, kinds, constants=None):
    """A formula of so many operators in each other."""
    if depth == 0 or dice.random() < 0.15:
        return plain.Node(dice.choice(["true", "false"])) if dice.random() < 0.06 else atom(dice, constants)
    kind = dice.choice(kinds)
    below = [formula(dice, depth - 1, kinds, constants) for _ in range(2 if kind in (*plain.CONNECTIVES, "until", "since") else 1)]
    low, high = sorted(dice.randint(0, 5) for _ in range(2))
    high = low if dice.random() < 0.2 else high
    ends = (True, True) if kind in ("until", "since") or dice.random() < 0.5 else (dice.random() < 0.5, dice.random() < 0.5)
    if kind in (*plain.BEHIND, "since") and dice.random() < 0.3:
        high, ends = None, (ends[0], True)
    return plain.Node(kind, below, low, high, ends)


KINDS = ["not", *plain.CONNECTIVES, "until", "since", *plain.AHEAD, *plain.BEHIND]
STREAMED = [kind for kind in KINDS if kind not in ("until", "since")]


def recording(dice, least, most):
    """A few rows that lie near each other, with small values."""
    time, rows = dice.randint(0, 2), []
    for _ in range(dice.randint(least, most)):
        rows.append((time, *(dice.randint(-4, 4) for _ in plain.COLUMNS)))
        time += dice.choice([1, 1, 2, 3])
    return plain.Recording(rows)


def cases(seed, count, depths, kinds, rows=(1, 7), parts=60, ahead=False, apart=False):
    """So many cases that are cut into few enough parts: a formula, a recording, and its cells."""
    dice = random.Random(seed)
    while count:
        constants = dice.sample(range(-9, 10), 19) if apart else None
        judged, given = formula(dice, dice.choice(depths), kinds, constants), recording(dice, *rows)
        cells = plain.Cells(given, judged, judged.horizon() if ahead else 0)
        if cells.parts <= parts:
            count -= 1
            yield judged, given, cells


def answer(bench, command, judged, given, statuses=(0, 1)):
    """What a command writes, as lines."""
    run = bench.run("stl_bench", command, judged.text(), given=given.text())
    frame.holds(run.status in statuses and not run.err, f"{command} {judged.text()!r} on {given.text()!r} ended with {run.status}: {run.err}")
    return run


def start_line(truth):
    return f"start {'true' if truth else 'false'}"


def agree(run, lines, truth, command, judged, given):
    """Fails where lines or status are not those that they have to be."""
    about = f"{command} {judged.text()!r} on {given.text()!r}"
    frame.same("\n".join(run.out.splitlines()), "\n".join(lines), about)
    frame.same(run.status, 0 if truth else 1, f"the status of {about}")


def test_check_tells_the_truth_at_each_time(bench):
    told = 0
    for judged, given, cells in cases(1, 500, [0, 1, 2, 2, 3], KINDS):
        root = plain.evaluate(cells, judged)[-1]
        lines = plain.verdict_lines(cells, root, 0, cells.last)
        agree(answer(bench, "check", judged, given), [*lines, start_line(root[0])], root[0], "check", judged, given)
        told += len(lines) > 1
    frame.holds(told > 200, f"only {told} cases had more than one stretch")


def test_watch_tells_at_each_row_what_it_answers(bench):
    """The verdicts up to a row's time less the horizon come with that row; they are those of check, cut there."""
    told = 0
    for judged, given, cells in cases(2, 300, [0, 1, 2, 2, 3], KINDS):
        root, lines, begun = plain.evaluate(cells, judged)[-1], [], 0
        for time, *_ in given.rows:
            answered = 2 * cells.parts * (time - judged.horizon() - given.start)
            if answered >= begun:
                lines += plain.verdict_lines(cells, root, begun, answered)
                begun = answered + 1
        if begun <= cells.last:
            lines += plain.verdict_lines(cells, root, begun, cells.last)
        agree(answer(bench, "watch", judged, given), [*lines, start_line(root[0])], root[0], "watch", judged, given)
        told += len(lines) > 2
    frame.holds(told > 150, f"only {told} cases had more than two stretches")


def test_early_tells_the_first_row_that_settles_the_start(bench):
    settled = 0
    for judged, given, cells in cases(3, 300, [0, 1, 2, 2, 3], KINDS, rows=(2, 6), parts=12, ahead=True):
        truth, at = plain.evaluate(cells, judged)[-1][0], "end"
        for many in range(1, len(given.rows) + 1):
            so_far = plain.Recording(given.rows[:many])
            found = plain.settled(plain.Cells(so_far, judged, judged.horizon()), judged)[-1][0]
            if found is not None:
                at = so_far.stop
                frame.same(found, truth, "what a row settles beside the truth of the whole")
                break
        agree(answer(bench, "early", judged, given), [f"decided at {at}", start_line(truth)], truth, "early", judged, given)
        settled += at not in ("end", given.start)
    frame.holds(settled > 30, f"only {settled} cases were settled by a later row")


def test_explain_keeps_what_dropping_one_by_one_leaves(bench):
    """Atoms differ, since a line names its atom by its text."""
    told = 0
    for judged, given, cells in cases(4, 250, [2, 3, 3], KINDS, rows=(2, 4), parts=4, apart=True):
        truth = plain.evaluate(cells, judged)[-1][0]
        lines = [] if truth else plain.explanation(cells, judged)
        agree(answer(bench, "explain", judged, given), [start_line(truth), *lines], truth, "explain", judged, given)
        told += len(lines) > 1
    frame.holds(told > 5, f"only {told} cases had more than one line")


def pieces(text):
    """The points and gaps of lines of margins: begin, end (none for a point), and the values at both ends."""
    found = []
    for line in text.splitlines():
        begin, end, first, last = LINE.fullmatch(line).groups()
        found.append((Fraction(begin), end and Fraction(end), first, last or first))
    return found


def along(piece, time):
    """The value of a gap's line at a time of it or at one of its ends."""
    begin, end, first, last = piece
    if first == last:
        return first
    first, last = Fraction(first), Fraction(last)
    return str(first + (last - first) * (time - begin) / (end - begin))


def test_rwatch_tells_the_margins_of_robust(bench):
    """Its lines cover the recording one behind the other, and each is a part of one line of robust."""
    told = 0
    for judged, given, _ in cases(5, 300, [0, 1, 2, 3], STREAMED):
        whole, parts = (pieces(answer(bench, command, judged, given, (0,)).out) for command in ("robust", "rwatch"))
        about, at, reached = f"rwatch {judged.text()!r} on {given.text()!r}", 0, None
        for begin, end, first, last in parts:
            # a point lies behind the gap that ends there, and a gap behind the point where it begins
            frame.holds(reached == (begin, end is not None) or reached is None and (begin, end) == (given.start, None), f"{about}: {begin}")
            while whole[at][1] is not None and whole[at][1] <= begin or whole[at][1] is None and (whole[at][0] < begin or end is not None):
                at += 1
            piece = whole[at]
            wanted = (piece[2], piece[2]) if piece[1] is None else (along(piece, begin), along(piece, begin if end is None else end))
            frame.same((first, last), wanted, f"{about}: the line at {begin}")
            reached = (begin, True) if end is None else (end, False)
        frame.same(reached, (given.stop, True), f"{about}: the end")
        told += len(parts) > len(whole)
    frame.holds(told > 20, f"only {told} cases were cut by a row")


# `x` rises from 0 to 8, and `y` falls from 8 to 0
RAMPS = "time,x,y\n0,0,8\n8,8,0\n"
DOWN_AND_UP = "time,x:step\n0,3\n4,-2\n8,5\n"
FROM_TWO = "time,x\n2,0\n6,4\n"
AT_FIVE = "time,x\n5,7\n"

# a formula, a recording, and the lines of its margin, each worked by hand from the definition
MEASURED = [
    ("not x >= 3", RAMPS, "[0] 3\n(0,8) 3 -> -5\n[8] -5\n"),
    ("x >= 3 and y >= 2", RAMPS, "[0] -3\n(0,9/2) -3 -> 3/2\n[9/2] 3/2\n(9/2,8) 3/2 -> -2\n[8] -2\n"),
    ("x >= 3 or y >= 2", RAMPS, "[0] 6\n(0,9/2) 6 -> 3/2\n[9/2] 3/2\n(9/2,8) 3/2 -> 5\n[8] 5\n"),
    ("x <= 1 implies y >= 4", RAMPS, "[0] 4\n(0,5/2) 4 -> 3/2\n[5/2] 3/2\n(5/2,8) 3/2 -> 7\n[8] 7\n"),
    ("eventually[1,3] x >= 3", RAMPS, "[0] 0\n(0,5) 0 -> 5\n[5] 5\n(5,7) 5 -> 5\n[7] 5\n(7,8) -inf -> -inf\n[8] -inf\n"),
    ("always[1,3] x >= 3", RAMPS, "[0] -2\n(0,7) -2 -> 5\n[7] 5\n(7,8) inf -> inf\n[8] inf\n"),
    ("once[1,3] x >= 3", RAMPS, "[0] -inf\n(0,1) -inf -> -inf\n[1] -3\n(1,8) -3 -> 4\n[8] 4\n"),
    ("historically[1,3] x >= 3", RAMPS, "[0] inf\n(0,1) inf -> inf\n[1] -3\n(1,3) -3 -> -3\n[3] -3\n(3,8) -3 -> 2\n[8] 2\n"),
    ("x >= 2 until[1,3] y >= 2", RAMPS, "[0] -2\n(0,7/2) -2 -> 3/2\n[7/2] 3/2\n(7/2,7) 3/2 -> -2\n[7] -2\n(7,8) -inf -> -inf\n[8] -inf\n"),
    ("y >= 1 until[1,3] x >= 1", RAMPS, "[0] 2\n(0,1) 2 -> 3\n[1] 3\n(1,3) 3 -> 3\n[3] 3\n(3,7) 3 -> -1\n[7] -1\n(7,8) -inf -> -inf\n[8] -inf\n"),
    ("y >= 1 since[1,3] x >= 1", RAMPS, "[0] -inf\n(0,1) -inf -> -inf\n[1] -1\n(1,9/2) -1 -> 5/2\n[9/2] 5/2\n(9/2,8) 5/2 -> -1\n[8] -1\n"),
    ("x >= 1 since[1,3] y >= 1", RAMPS, "[0] -inf\n(0,1) -inf -> -inf\n[1] -1\n(1,5) -1 -> 3\n[5] 3\n(5,7) 3 -> 3\n[7] 3\n(7,8) 3 -> 2\n[8] 2\n"),
    ("x >= 2 until[0,0] y >= 2", RAMPS, "[0] -2\n(0,4) -2 -> 2\n[4] 2\n(4,8) 2 -> -2\n[8] -2\n"),
    ("y >= 1 since x >= 1", RAMPS, "[0] -1\n(0,4) -1 -> 3\n[4] 3\n(4,8) 3 -> -1\n[8] -1\n"),
    ("historically x >= 3", RAMPS, "[0] -3\n(0,8) -3 -> -3\n[8] -3\n"),
    ("once[2,inf[ y >= 2", RAMPS, "[0] -inf\n(0,2) -inf -> -inf\n[2] 6\n(2,8) 6 -> 6\n[8] 6\n"),
    ("eventually]0,2] x >= 0", DOWN_AND_UP, "[0] 3\n(0,4) 3 -> 3\n[4] -2\n(4,6) -2 -> -2\n[6] 5\n(6,8) 5 -> 5\n[8] -inf\n"),
    ("eventually[0,2[ x >= 0", DOWN_AND_UP, "[0] 3\n(0,4) 3 -> 3\n[4] -2\n(4,6) -2 -> -2\n[6] -2\n(6,8) 5 -> 5\n[8] 5\n"),
    ("once]0,1] x >= 0", DOWN_AND_UP, "[0] -inf\n(0,5) 3 -> 3\n[5] -2\n(5,8) -2 -> -2\n[8] -2\n"),
    ("always[0,1] x >= 0", DOWN_AND_UP, "[0] 3\n(0,3) 3 -> 3\n[3] -2\n(3,8) -2 -> -2\n[8] 5\n"),
    ("eventually[1,2] not historically[0,1] x >= 3", RAMPS, "[0] 3\n(0,7) 3 -> -4\n[7] -4\n(7,8) -inf -> -inf\n[8] -inf\n"),
    ("true", FROM_TWO, "[2] inf\n(2,6) inf -> inf\n[6] inf\n"),
    ("false or x >= 1", FROM_TWO, "[2] -1\n(2,6) -1 -> 3\n[6] 3\n"),
    ("true until[1,3] x >= 1", FROM_TWO, "[2] 2\n(2,3) 2 -> 3\n[3] 3\n(3,5) 3 -> 3\n[5] 3\n(5,6) -inf -> -inf\n[6] -inf\n"),
    ("eventually[0,2] x >= 3", AT_FIVE, "[5] 4\n"),
    ("always[1,2] x >= 3", AT_FIVE, "[5] inf\n"),
    ("x >= 3 since[0,1] x >= 5", AT_FIVE, "[5] 2\n"),
]


def test_robust_as_worked_by_hand(bench):
    for text, given, lines in MEASURED:
        bench.run("stl_bench", "robust", text, given=given).ended(0, lines)


def test_a_crossing_is_refused_at_its_node_where_its_denominator_is_too_large(bench):
    """Over 2147483647 ticks x rises by 2^25, and over the 2147483629 after them y falls by 2^25, or by one less: then the denominator is below 2^60."""
    text = "16*x >= 1 and eventually[2147483647,2147483647] 16*y >= 0"
    given = "time,x,y\n0,-16777216,0\n2147483647,16777216,16777216\n4294967276,0,{}\n"
    wide = "wide: node 3 needs denominator 2305842998476275712\n"
    bench.run("stl_bench", "robust", text, given=given.format(-16777216)).ended(8, "", wide)
    bench.run("stl_bench", "robust", text, given=given.format(-16777215)).ended(0)


# a formula, a recording, the row that settles it or the end, and the truth at the start, each worked by hand from the definition
SETTLED = [
    ("x >= 0", "time,x\n3,1\n4,-1\n", "3", True),
    ("eventually[0,5] x >= 1", "time,x\n0,0\n2,1\n3,0\n", "2", True),
    ("always[0,2] x >= 0", "time,x\n0,1\n1,1\n2,1\n5,1\n", "2", True),
    ("always[0,2] x >= 0", "time,x\n0,1\n1,1\n", "end", True),
    ("eventually[0,3] x > 1", "time,x\n0,1\n2,1\n", "end", False),
    ("always[2,2] false", "time,x\n0,1\n", "end", True),
    ("always[2,4] false", "time,x\n0,1\n2,1\n", "2", False),
    ("eventually[2,3] always[0,2] false", "time,x\n0,1\n", "0", False),
    ("always[2,4] x > 0", "time,x\n0,1\n", "end", True),
    ("once[2,2] true", "time,x\n0,1\n", "0", False),
    ("always[2,3] once[2,7] false", "time,x\n0,1\n5,1\n", "5", False),
    ("(historically[1,6] y >= 1) until[2,7] (eventually[2,3] x >= 1)", "time,x,y:step\n0,1,0\n3,1,0\n5,1,1\n6,0,1\n", "0", False),
    ("always[3,8] false", "time,x\n0,1\n", "end", True),
    ("always[3,5] historically[2,inf] x >= 1", "time,x\n0,1\n1,1\n2,1\n3,1\n", "3", True),
    ("x >= 0 until[1,3] x >= 2", "time,x\n0,1\n2,2\n", "2", True),
    ("x >= 0 until[1,3] x >= 2", "time,x\n0,1\n2,-1\n", "2", False),
    ("always[1,2] (x >= 1 since[0,inf] x >= 3)", "time,x\n0,3\n1,1\n2,1\n", "2", True),
    ("always[1,2] (x >= 1 since[0,inf] x >= 3)", "time,x\n0,2\n1,1\n", "1", False),
]


def test_early_as_worked_by_hand(bench):
    for text, given, at, truth in SETTLED:
        bench.run("stl_bench", "early", text, given=given).ended(0 if truth else 1, f"decided at {at}\n{start_line(truth)}\n")


# a formula, up to which of two hundred rows `y` is 1 at each fourth, and the row that settles it, so late that the rows before were let go of
LATE = [
    ("always[0,150] eventually[0,5] y >= 1", 199, 152, True),
    ("always[0,150] eventually[0,5] y >= 1", 100, 106, False),
    ("always[0,150] (x >= 1 until[0,5] y >= 1)", 199, 152, True),
    ("always[0,150] (x >= 1 until[0,5] y >= 1)", 100, 106, False),
    ("always[0,150] once[0,5] y >= 1", 199, 148, True),
    ("always[0,150] once[0,5] y >= 1", 100, 106, False),
    ("always[0,150] (x >= 1 since[0,5] y >= 1)", 199, 150, True),
    ("always[0,150] (x >= 1 since[0,5] y >= 1)", 100, 106, False),
    ("always[0,150] (x >= 1 since y >= 1)", 100, 150, True),
    ("always[0,150] (once[0,4] y >= 1 since y >= 1)", 199, 148, True),
    ("always[0,150] (once[0,4] y >= 1 since y >= 1)", 100, 105, False),
]


def test_early_late_as_worked_by_hand(bench):
    for text, until, at, truth in LATE:
        rows = "".join(f"{time},1,{int(time % 4 == 0 and time <= until)}\n" for time in range(200))
        bench.run("stl_bench", "early", text, given=f"time,x,y\n{rows}").ended(0 if truth else 1, f"decided at {at}\n{start_line(truth)}\n")
