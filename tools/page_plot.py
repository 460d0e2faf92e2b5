"""The pictures of a page, as SVG. The script page stands on this, and page.html draws the same where the reader zooms.

Floats are places here, and nothing else: each text is a decimal of whole numbers, or comes from the recording or the formula. The script
in page.html counts with the same floats in the same order, so that both draw the same picture.
"""
import decimal
import html
import math
import re

from page_rows import WIDE, number, stretches

RIGHT = 26
SIGNAL, SWITCH, BAND, MARGIN, GAP, AXIS = 92, 42, 22, 84, 10, 34
LONGEST_LABEL = 28
WORDS = {"not", "and", "or", "implies", "until", "eventually", "always", "since", "once", "historically", "true", "false", "inf"}
FIELD = re.compile(r"[A-Za-z_][A-Za-z0-9_.]*")
TOKEN = re.compile(r"[A-Za-z_][A-Za-z0-9_.]*|[0-9]+(?:\.[0-9]+)?|>=|<=|[^\s]")


def rounded(place):
    """The text of a place, with at most two decimals, as the script writes it."""
    return f"{math.floor(place * 100 + 0.5) / 100:g}"


def element(name, inside="", **attributes):
    """An element; `inside` is text of HTML, and the attributes are escaped. Floats are places."""
    told = ""
    for key, value in attributes.items():
        value = rounded(value) if isinstance(value, float) else html.escape(str(value))
        told += f' {key.rstrip("_").replace("_", "-")}="{value}"'
    return f"<{name}{told}>{inside}</{name}>"


def names_of(text, columns):
    """The columns that a formula or an atom names, in the recording's order."""
    found = {word for word in FIELD.findall(text) if word not in WORDS}
    return [name for name in columns if name in found]


def thinned(points, x):
    """Of the points in one column of the picture the first, least, greatest and last."""
    kept, times = [], [time for time, _ in points]
    for begin, end in stretches(times, lambda time: math.floor(x(time)), len(points)):
        values = [value for _, value in points[begin:end]]
        kept += [points[begin + k] for k in sorted({0, values.index(min(values)), values.index(max(values)), end - begin - 1})]
    return kept


def decimal_text(whole, exponent):
    """A whole number times a power of ten, as a decimal."""
    return f"{decimal.Decimal(whole).scaleb(exponent):f}"


def ticks(low, high, count):
    """About so many round numbers from low to high, each with its text. The script makes the same of the same floats."""
    exponent = 12
    while exponent > -24 and float(f"1e{exponent - 1}") >= high - low:
        exponent -= 1
    for digit, power in ((1, exponent), (5, exponent - 1), (2, exponent - 1), (1, exponent - 1), (5, exponent - 2), (2, exponent - 2)):
        size = float(f"{digit}e{power}")
        if (high - low) / size >= count:
            break
    places = range(math.ceil(low / size), math.floor(high / size) + 1)
    return [(k * size, decimal_text(k * digit, power)) for k in places]


def left_of(columns):
    """The room that the names of the columns need."""
    return 36 + 8 * min(max([5, *map(len, columns)]), LONGEST_LABEL)


def compared_in(formula):
    """The atoms of a formula that compare one column without a coefficient: its name, the relation and the constant."""
    tokens, found = TOKEN.findall(formula), []
    for at, sign in enumerate(tokens[1:-1], 1):
        signed = tokens[at + 1] in ("-", "+")
        name, constant = tokens[at - 1], tokens[at + 1 + signed : at + 2 + signed]
        alone = at < 2 or tokens[at - 2] not in ("*", "+", "-")
        if sign in (">=", ">", "<=", "<") and FIELD.fullmatch(name) and alone and constant and constant[0][0].isdigit():
            found.append((name, sign, decimal.Decimal(constant[0]) * (-1 if tokens[at + 1] == "-" else 1)))
    return found


class Plot:
    """The picture of one requirement; the script of the page draws the same again where the reader zooms."""

    def __init__(self, recording, formula, left):
        self.low, self.high, self.left = recording.low, recording.high, left
        self.end = recording.times[-1]
        self.constants = list(dict.fromkeys(compared_in(formula)))
        self.top, self.parts = 5, []

    def x(self, time):
        return (time - self.low) / (self.high - self.low) * WIDE

    def panel(self, kind, label, height, inside, **attributes):
        """One picture below those before, with what the script draws anew in a group of its own."""
        small = height == SWITCH
        shown = html.escape(label if len(label) <= LONGEST_LABEL else label[: LONGEST_LABEL - 2] + "..")
        parts = [
            element("rect", class_="back", width=WIDE, height=height),
            element("g", inside, class_="live"),
            element("text", shown, class_="label", x=-24 if small else -8, y=25 if small else 15 if kind == "band" else 11, text_anchor="end"),
        ]
        place = f"translate({self.left},{self.top})"
        self.parts.append(element("g", "".join(parts), class_="panel", data_kind=kind, data_height=height, transform=place, **attributes))
        self.top += height + GAP

    def line(self, points, y, kind):
        corners = "L".join(f"{rounded(self.x(t))},{rounded(y(v))}" for t, v in thinned(points, self.x))
        return element("path", class_=kind, clip_path="url(#clip)", d=f"M{corners}h0")

    def grid(self, low, high, y, height):
        shown = [(0, "0"), (1, "1")] if height == SWITCH else [(v, text) for v, text in ticks(low, high, 3) if 22 < y(v) <= height]
        lines = ""
        for value, text in shown:
            place = y(value)
            lines += element("line", class_="grid", x2=WIDE, y1=place, y2=place)
            lines += element("text", text, class_="tick", x=-8, y=place + 3.5, text_anchor="end")
        for time, _ in ticks(self.low, self.high, 7):
            lines += element("line", class_="grid", y2=height, x1=self.x(time), x2=self.x(time))
        return lines

    def scale(self, values, height):
        """The range shown, and what turns a value into a place; what is infinite runs along the edge."""
        finite = [v for v in values if abs(v) != math.inf] or [0.0]
        low, high = min(finite), max(finite)
        room = (high - low) * 0.08 or abs(high) * 0.1 or 1.0
        low, high = low - room, high + room
        return low, high, lambda v: min(max((high - v) / (high - low), 0.01), 0.99) * height

    def stretches(self, name, items, height):
        """The stretches of the explanation on a signal, each at least 3 wide; those that meet are one."""
        met = []
        for item in items:
            if name in item["names"]:
                left, right = max(self.x(item["begin"]), -9.0), min(self.x(item["end"]), WIDE + 9.0)
                room = max(3 - (right - left), 0.0) / 2
                left, right = left - room, right + room
                if met and met[-1][0] <= left <= met[-1][1] + 0.5:
                    met[-1][1] = max(met[-1][1], right)
                else:
                    met.append([left, right])
        return "".join(element("rect", class_="stretch", clip_path="url(#clip)", x=a, width=b - a, height=height) for a, b in met)

    def compared(self, name, items, y, height):
        """What the formula compares a signal with, to be drawn over it. Upper bounds have their text above the line, lower ones below."""
        forced, drawn = [key for item in items for key in compared_in(item["atom"])], ""
        for key in self.constants:
            if key[0] == name:
                text, kind, place = f"{key[0]} {key[1]} {key[2]:f}", " forced" if key in forced else "", y(float(key[2]))
                at = place + 11 if place < 12 or ">" in key[1] and place + 13 < height else place - 3
                drawn += element("line", class_="constant" + kind, x2=WIDE, y1=place, y2=place)
                drawn += element("text", html.escape(text), class_="note" + kind, x=WIDE - 4, y=at, text_anchor="end", data_value=f"{key[2]:f}")
        return drawn

    def signal(self, name, mode, points, items):
        values = {v for _, v in points} | {float(value) for column, _, value in self.constants if column == name}
        height = SWITCH if values <= {0, 0.5, 1} and mode == "step" else SIGNAL
        low, high, y = self.scale(values, height)
        inside = self.grid(low, high, y, height) + self.stretches(name, items, height) + self.line(points, y, "signal")
        inside += self.compared(name, items, y, height)
        self.panel("signal", name, height, inside, data_name=name, data_low=repr(low), data_high=repr(high))

    def verdicts(self, lines):
        """The band: each false moment at least 1.4 wide, and over it what is too near to draw apart as both."""
        false, both = [], []
        for line in lines:
            if line.endswith("false"):
                begin, _, end = line[1:-7].partition(",")
                left = max(self.x(number(begin)), 0.0)
                right = min(max(self.x(number(end)), left + 1.4), WIDE)
                if false and left - false[-1][1] < 0.5:
                    gap = [min(false[-1][1], left) - 0.7, min(max(false[-1][1], left) + 0.7, WIDE)]
                    false[-1][1] = max(false[-1][1], right)
                    if both and gap[0] - both[-1][1] < 0.5:
                        both[-1][1] = max(both[-1][1], gap[1])
                    else:
                        both.append(gap)
                else:
                    false.append([left, right])
        inside = element("rect", class_="true", width=max(min(self.x(self.end), float(WIDE)), 1.4), height=BAND)
        for kind, parts in (("false", false), ("both", both)):
            for left, right in parts:
                for look in (kind, "hatch"):
                    inside += element("rect", class_=look, x=float(left), width=float(right - left), height=BAND)
        self.panel("band", "verdict", BAND, inside)

    def margins(self, corners):
        low, high, y = self.scale([v for _, v in corners] + [0], MARGIN)
        zero = element("line", class_="zero", x2=WIDE, y1=y(0), y2=y(0))
        inside = self.grid(low, high, y, MARGIN) + zero + self.line(corners, y, "margin")
        self.panel("margin", "margin", MARGIN, inside, data_low=repr(low), data_high=repr(high))

    def times(self):
        """The times below: all ticks, or so many of them that their texts stand apart."""
        shown = ticks(self.low, self.high, 7)
        room = 7 * max((len(text) for _, text in shown), default=0) + 8
        every = math.ceil(room / (self.x(shown[1][0]) - self.x(shown[0][0]))) if len(shown) > 1 else 1
        return "".join(element("text", text, class_="tick", x=self.x(t), y=12, text_anchor="middle") for t, text in shown[::every])

    def written(self, n):
        """The whole picture, with the axis below."""
        axis = element("g", self.times(), class_="live") + element("text", "time", class_="label", x=WIDE, y=26, text_anchor="end")
        place = f"translate({self.left},{self.top - GAP + 4})"
        below = element("g", axis, class_="panel", data_kind="axis", data_height=0, transform=place)
        drag = element("rect", class_="drag", y=0, height=self.top - GAP, width=0)
        cursor = element("line", class_="cursor", y1=0, y2=self.top - GAP)
        box = f"0 0 {self.left + WIDE + RIGHT} {self.top + AXIS}"
        about = "signals, verdicts and margins over time"
        inside = "".join(self.parts) + below + drag + cursor
        return element("svg", inside, class_="plot", data_requirement=n, viewBox=box, role="img", aria_label=about)
