"""Tests of tools/page. Debian: chromium. What it draws without a network is looked at by html.parser, and by Chromium where it is there."""
import hashlib
import html
import html.parser
import os
import pathlib
import random
import re
import resource
import signal
import sys
import time

import frame

RINGING = "recordings/rlc_ringing.csv"
LATE = "recordings/braking_late.csv"
SETTLES = "always[0,10] (in >= 0.5 implies eventually[0,1] always[0,5] (out >= 0.98 and out <= 1.02))"
STOPS = "always stops: brake >= 0.5 implies eventually[0,1] speed <= 10\n"
WIDE = "time,x,y\n0,1048576,-1\n1048575,0,1048575\n2097152,1048575,0\n"
EVIL = """</title></pre><script>document.title="evil"</script><img src=x onerror='document.title="evil"'> " ' & @@TITLE@@"""
VOID = {"meta", "br", "img", "link", "input", "hr"}


class Parsed(html.parser.HTMLParser):
    """The elements of a page, each with its attributes and its text."""

    def __init__(self, text):
        super().__init__()
        self.elements, self.open = [], []
        self.feed(text)
        self.close()
        frame.same(self.open, [], "elements that are not closed")

    def handle_starttag(self, tag, attributes):
        self.elements.append([tag, dict(attributes), ""])
        if tag not in VOID:
            self.open.append(self.elements[-1])

    def handle_endtag(self, tag):
        frame.holds(self.open and self.open[-1][0] == tag, f"</{tag}> in {self.open[-1:]}")
        self.open.pop()

    def handle_data(self, text):
        for element in self.open:
            element[2] += text

    def texts(self, tag, kind=None):
        """The texts of the elements with this tag and class."""
        return [text for name, attributes, text in self.elements if name == tag and kind in (None, attributes.get("class"))]


def page(bench, requirements, recording, *words, status=0):
    """The text of a page of a recording."""
    run = bench.tool("page", bench.write("some.requirements", requirements), recording, *words, seconds=300)
    return run.ended(status, None).out


def lines(text):
    return [line for line in text.split("\n") if line]


def pictures(text):
    """What the script draws anew, as it stands in the page or in what a browser made of it."""
    return re.findall(r'<g class="live">(.*?)</g>', text[: text.index('"use strict"')], re.DOTALL)


def chromium(bench, words, text, name="page.html"):
    """What Chromium writes of a page."""
    profile = f"--user-data-dir={bench.folder / 'profile'}"
    flags = ["--headless", "--no-sandbox", "--disable-gpu", "--hide-scrollbars", "--window-size=1200,2000", profile]
    run = bench.run("chromium", *flags, *words, (bench.folder / bench.write(name, text)).as_uri(), seconds=120)
    frame.same(run.status, 0, run.err)
    return run.out


def dom(bench, text, script=""):
    """The page as Chromium has it, when its script and one more has run."""
    found = chromium(bench, ["--dump-dom"], text.replace("</body>", f"<script>{script}</script></body>"))
    frame.holds('data-drawn="yes"' in found, "the script of the page did not end")
    return found


def picture(bench, text):
    """The bytes of a screenshot."""
    chromium(bench, ["--screenshot=picture.png"], text)
    return pathlib.Path("picture.png").read_bytes()


def same_picture(bench, text):
    """That the script draws what stands in the page."""
    found = pictures(dom(bench, text))
    frame.same(len(found), len(pictures(text)), "how many pictures")
    for seen, written in zip(found, pictures(text)):
        if seen != written:
            at = next((k for k, pair in enumerate(zip(seen, written)) if pair[0] != pair[1]), min(len(seen), len(written)))
            frame.same(seen[max(0, at - 80) : at + 80], written[max(0, at - 80) : at + 80], "a picture as the script draws it")


def recording_of(rows, seed=1):
    """A recording with a ramp, a switch and a counter. Its rows come in bursts."""
    dice, time, ramp, switch, found = random.Random(seed), 0, 0, 0, ["time:3,ramp:2,switch:step,other,count:step"]
    for _ in range(rows):
        ramp = max(-5000, min(5000, ramp + dice.randint(-60, 60)))
        switch ^= dice.random() < 0.01
        found.append(f"{time / 1000:.3f},{ramp / 100:.2f},{switch},{dice.randint(0, 9)},{dice.randint(0, 5)}")
        time += 1 if dice.random() < 0.9 else dice.randint(1, 90)
    return "\n".join(found) + "\n"


SOME = ("slow: ramp <= 10\nalways quick: switch >= 0.5 implies eventually[0,0.5] ramp >= -3\nalways few: count <= 4 since[0,2] ramp - count >= -30\n")


def test_texts_are_those_of_the_program(bench):
    text = page(bench, f"settles: {SETTLES}\nalways below: once[1,inf] in >= 0.5 implies out <= 1.05\n", RINGING, "--title", "The circuit")
    parsed = Parsed(text)
    for n, (formula, asked) in enumerate([(SETTLES, SETTLES), ("once[1,inf] in >= 0.5 implies out <= 1.05",) * 2]):
        given = pathlib.Path(RINGING).read_text()
        for command, kind in (("check", "check"), ("table", "table")):
            written = bench.run("stl_bench", command, formula, given=given).out
            frame.same(lines(parsed.texts("pre", kind)[n]), lines(written)[command == "table" :], f"{command} {formula}")
        whole = asked if n == 0 else f"always[0,5] ({asked})"
        frame.same(lines(parsed.texts("pre", "explain")[n]), lines(bench.run("stl_bench", "explain", whole, given=given).out)[1:])
        for line in lines(parsed.texts("pre", "explain")[n]):
            frame.holds(line in parsed.texts("li"), f"{line} is not listed")
    frame.same(lines(parsed.texts("pre", "rows")[0]), lines(pathlib.Path(RINGING).read_text()), "the recording")
    frame.same(parsed.texts("title") + parsed.texts("h1"), ["The circuit", "The circuit"])
    cells = parsed.texts("td")
    frame.same(cells, ["settles", "\u25b2 fails", "-193/1056 \u2248 -0.182765", "[0,69/32) = 0 to 2.15625",
                       "below", "\u25b2 fails", "-163/1056 \u2248 -0.154356", "[61/40,3181/1960) \u2248 1.525 to 1.62296"])
    buttons = [a["data-span"] for tag, a, _ in parsed.elements if tag == "button" and "data-span" in a]
    frame.same(buttons, ["0,69/32", "61/40,3181/1960", "101/50,803/360"])
    for path in (RINGING, "bin/stl_bench"):
        frame.holds(hashlib.sha256(pathlib.Path(path).read_bytes()).hexdigest() in parsed.texts("footer")[0], f"the SHA-256 of {path}")


def test_nothing_outside_is_asked_for(bench):
    text = page(bench, STOPS, LATE)
    parsed = Parsed(text)
    frame.same({tag for tag, _, _ in parsed.elements} & {"img", "link", "iframe", "object", "embed", "base", "form"}, set())
    frame.same([a for tag, a, _ in parsed.elements if tag == "script"], [{}])
    for tag, attributes, _ in parsed.elements:
        for name in ("src", "href", "xlink:href", "action", "style"):
            frame.holds(attributes.get(name, "#").startswith("#") or name == "style" and "url" not in attributes[name], f"{tag} {attributes}")
    frame.same(set(re.findall(r"url\(([^)]*)\)", text)), {"#hatch", "#clip"})
    frame.same(re.findall(r"https?:|//[a-z]+\.|@import|fetch|XMLHttp|WebSocket|sendBeacon", text), [])


def test_the_same_input_makes_the_same_page(bench):
    first = page(bench, STOPS, LATE)
    time.sleep(1.1)
    frame.same(page(bench, STOPS, LATE), first, "the page a second later")
    given = bench.tool("page", "-", LATE, given=STOPS)
    frame.same((given.status, given.out), (0, first), "the page of requirements on the input")


def test_words_stay_text(bench):
    """A title, a formula and the name of a recording that try to break out."""
    name = bench.write(EVIL.replace("/", "_"), pathlib.Path(LATE).read_bytes())
    text = page(bench, f"{STOPS}evil: speed <= 10 {EVIL}\n", name, "--title", EVIL, status=2)
    parsed = Parsed(text)
    frame.same(parsed.texts("title") + parsed.texts("h1"), [EVIL, EVIL])
    frame.same(parsed.texts("code")[1], f"speed <= 10 {EVIL}")
    frame.same(len(parsed.texts("script")), 1, "scripts")
    frame.same(len(parsed.texts("img")), 0, "pictures")
    frame.holds(name in parsed.texts("p")[0], parsed.texts("p")[0])
    control = Parsed(page(bench, STOPS, LATE, "--title", "a\nb\x07\udcff"))
    frame.same(control.texts("h1"), ["a?b??"])


def test_a_column_that_tries_to_break_out(bench):
    """No such name is a recording's; the longest name stands in the picture cut, and whole in what the page holds."""
    bench.write("evil.csv", "time,x<script>\n0,1\n")
    bench.tool("page", bench.write("a", "r: true\n"), "evil.csv").refused("page: evil.csv: line 1: field 2: bad name")
    name = "l" + "o" * 62 + "g"
    bench.write("long.csv", f"time,{name}:step\n0,1\n1,0\n")
    text = page(bench, f"r: {name} >= 0.5\n", "long.csv")
    parsed = Parsed(text)
    frame.holds("l" + "o" * 25 + ".." in parsed.texts("text", "label"), parsed.texts("text", "label"))
    frame.holds(name in parsed.texts("pre", "rows")[0], "the whole name")
    for width in re.findall(r'viewBox="0 0 (\d+)', text):
        frame.holds(int(width) < 1250, width)


def test_what_a_signal_is_compared_with(bench):
    """The constants of atoms of one column, and no other numbers; those of an atom that `explain` names are marked."""
    compared_in = frame.load("page_plot.py").compared_in
    for formula, wanted in [
        ("x>=2.50 and not(y<-3)", ["x >= 2.50", "y < -3"]), ("2*x >= 3 or 2 *  x >= 4", []), ("x - y <= 2 and y  -  x <= 2", []),
        ("always[0,3[ a.b > 0.5 until[1,2] _c <= - 7", ["a.b > 0.5", "_c <= -7"]), ("true", []), ("x >=", []), (">= 3", []), ("", []),
    ]:
        frame.same([f"{name} {sign} {value}" for name, sign, value in compared_in(formula)], wanted, formula)
    bench.write("some.csv", "time,x:1,y\n0,0,0\n2,1.0,3\n")
    drawn = pictures(page(bench, "always r: x >=0.50 and y<= +7\n", "some.csv"))
    frame.holds('class="note forced"' in drawn[0] and "x &gt;= 0.5" in drawn[0], drawn[0])
    frame.holds('class="note"' in drawn[1] and "y &lt;= 7" in drawn[1], drawn[1])


def test_one_row(bench):
    """The band of one row is a moment; no future is painted."""
    for value, word, kind in ((1, "holds", "true"), (0, "fails", "false")):
        bench.write("one.csv", f"time:2,x:step\n2.50,{value}\n")
        text = page(bench, "always up: x >= 0.5\n", "one.csv")
        frame.holds(f"\u25cf {word}" in text or f"\u25b2 {word}" in text or word in Parsed(text).texts("td")[1], text)
        band = pictures(text)[1]
        widths = [float(width) for width in re.findall(r'width="([0-9.]+)"', band)]
        frame.same(set(widths), {1.4}, band)
        frame.holds(f'class="{kind}"' in band, band)
        frame.holds("1 row, times 2.50 to 2.50" in text, "the rows and times")


def test_infinite_margins(bench):
    parsed = Parsed(page(bench, "r: true\ns: eventually[5,6] speed <= 10\n", LATE))
    frame.same(parsed.texts("td")[2], "inf")
    frame.holds("-inf" in parsed.texts("pre", "table")[1], "an infinite margin")


def test_no_margins(bench):
    """Where a margin is refused, the verdict stands and the page says what is not told."""
    bench.write("wide.csv", WIDE)
    text = page(bench, "wide: (always[0,1000] eventually[0,1048575] x >= 0) and y >= 0\n", "wide.csv")
    parsed = Parsed(text)
    told = "wide: node 4 needs denominator 2305841909703114752"
    frame.same(parsed.texts("td"), ["wide", "\u25b2 fails", f"not told: {told}", "[0,1048575/1048576) \u2248 0 to 0.999999"])
    frame.holds(f"No margins: {told}." in parsed.texts("p"), parsed.texts("p"))
    frame.same(len(pictures(text)), 4, "two signals, the band and the axis")


def test_no_explanation(bench):
    bench.write("many.csv", "time,x:step\n" + "".join(f"{n},{n % 2}\n" for n in range(40_001)))
    parsed = Parsed(page(bench, "always high: x >= 1\n", "many.csv"))
    frame.same(parsed.texts("td"), ["high", "\u25b2 fails", "-1", "[0,1)"])
    frame.holds("Not explained: too many cells: 80002." in parsed.texts("p"), parsed.texts("p"))
    frame.same(len([line for line in lines(parsed.texts("pre", "check")[0]) if line.endswith(") false") or line.endswith("] false")]), 20_001, "false spans that are held")


def test_what_is_not_judged(bench):
    text = page(bench, f"{STOPS}odd: sped >= 0\n", LATE, status=2)
    parsed = Parsed(text)
    frame.same(parsed.texts("td")[4:], ["odd", "\u2013 not judged", "", "line 1: unknown column sped"])
    frame.same(len(parsed.texts("section")), 2)


def test_refusals(bench):
    bench.write("none", "# nothing\n")
    bench.write("twice", f"{STOPS}[brak*]\n{STOPS}")
    bench.write("door", "[door*]\nr: true\n")
    good = bench.write("good", STOPS)
    bench.write("bad.csv", "time,x\n1,0\n0,0\n")
    os.mkfifo("pipe")
    for words, line in [
        (["missing", LATE], "missing: No such file or directory"),
        (["none", LATE], "none: no requirement"),
        (["twice", LATE], f"twice:3: stops stands on line 1 already for {LATE}"),
        (["door", LATE], f"{LATE}: no requirement is for it"),
        ([good, "nothing.csv"], "nothing.csv: No such file or directory"),
        ([good, "recordings"], "recordings: is no file that can be read twice"),
        ([good, "pipe"], "pipe: is no file that can be read twice"),
        ([good, "bad.csv"], "bad.csv: line 3: time not rising"),
        ([good, LATE, "--program", "no_such_program"], "there is no program no_such_program"),
        ([good, LATE, "--program", "/bin/true"], "/bin/true is not stl_bench"),
    ]:
        bench.tool("page", *words).refused(f"page: {line}")
    for words in ([], [good], [good, LATE, LATE], [good, LATE, "--colour"]):
        run = bench.tool("page", *words)
        frame.same((run.status, run.out, "Traceback" in run.err), (2, "", False), words)


def test_a_recording_that_changes_is_refused(bench):
    """A page of two states of a recording would be of none."""
    copy = bench.write("grows.csv", pathlib.Path(LATE).read_bytes())
    slow = bench.script("grows", f"#!/bin/sh\n[ $1 != table ] || echo 4,0,0 >> {copy}\nexec {bench.program} \"$@\"\n")
    bench.tool("page", bench.write("good", STOPS), copy, "--program", slow).refused(f"page: {copy}: changed while it was read")


def test_an_output_that_fails(bench):
    good = bench.write("good", STOPS)
    run = bench.run("sh", "-c", f"tools/page {good} {LATE} > /dev/full")
    run.refused("page: the output: No space left on device")
    run = bench.run("sh", "-c", f"(tools/page {good} {LATE}; echo $? >&2) | true")
    frame.same(run.err.splitlines()[-1:], ["1"], run.err)
    frame.holds("Traceback" not in run.err, run.err)


def test_an_interrupt(bench):
    good = bench.write("good", STOPS)
    slow = bench.script("slow", f"#!/bin/sh\n[ $1 != table ] || {{ : > begun; exec sleep 50; }}\nexec {bench.program} \"$@\"\n")
    run = bench.start("tools/page", good, LATE, "--program", slow)
    for _ in range(200):
        if os.path.exists("begun"):
            break
        time.sleep(0.05)
    run.send_signal(signal.SIGINT)
    out, err = run.communicate(timeout=20)
    frame.same((run.returncode, out, err), (130, b"", b""))


def test_line_ends(bench):
    """CR LF, blank lines and a last line without an end."""
    plain = "time:1,x:ramp:2,s:step\n0.0,1.00,0\n1.5,+2.25,1\n2.0,-0,1\n"
    bench.write("plain.csv", plain)
    bench.write("odd.csv", plain.replace("\n", "\r\n").replace("1.5", "\r\n \n\n1.5").rstrip())
    some = "r: x >= 0.5 and s <= 0.5\n"
    seen, wanted = Parsed(page(bench, some, "odd.csv")), Parsed(page(bench, some, "plain.csv"))
    for kind in ("rows", "check", "table", "explain"):
        frame.same(seen.texts("pre", kind), wanted.texts("pre", kind), kind)
    frame.same(lines(seen.texts("pre", "rows")[0]), lines(plain))


def kept_and_whole(bench, rows, seed):
    """The pages of one recording with all rows kept, and with those of short stretches."""
    tool = frame.load("page")
    bench.write("long.csv", recording_of(rows, seed))
    bench.write("some.requirements", SOME)
    made = []
    for exact in (10**9, 0):
        sys.modules["page_rows"].EXACT_ROWS = exact
        words = tool.argparse.Namespace(requirements="some.requirements", recording="long.csv", title=None, program="stl_bench")
        made.append("".join(tool.page(words)[0]))
    return made


@frame.slow
@frame.at_most(600)
def test_what_is_left_out_changes_no_picture(bench):
    """The picture of the kept rows and margins is that of all of them, also where rows come in bursts."""
    for seed in range(3):
        whole, kept = kept_and_whole(bench, 60_000, seed)
        held = Parsed(kept).texts("pre", "rows")[0]
        frame.holds(held.count("\n..\n") > 1000 and len(lines(held)) < 60_000, "rows are left out")
        frame.holds(sum(text.count("\n..\n") for text in Parsed(kept).texts("pre", "table")) > 1000, "margins are left out")
        for seen, wanted in zip(pictures(kept), pictures(whole)):
            frame.holds(seen == wanted, f"a picture of the kept rows is another one, seed {seed}")
        frame.same(Parsed(kept).texts("pre", "check"), Parsed(whole).texts("pre", "check"), "verdicts")


def test_what_is_kept(bench):
    """Kept rows are rows of the recording, in their order; between two that do not follow each other stands `..`."""
    text = recording_of(60_000)
    bench.write("long.csv", text)
    parsed = Parsed(page(bench, SOME, "long.csv"))
    all_rows = [",".join(line.split(",")[k] for k in (0, 1, 2, 4)) for line in lines(text)]
    place = {row: k for k, row in enumerate(all_rows)}
    before, gap, kept = -1, False, 0
    for line in lines(parsed.texts("pre", "rows")[0]):
        if line == "..":
            gap = True
            continue
        frame.holds(place[line] > before and gap == (place[line] > before + 1), line)
        before, gap, kept = place[line], False, kept + 1
    frame.same(before, 60_000, "the last row")
    frame.holds(f"The page holds {kept - 1:,} of the 60,000 rows" in parsed.texts("footer")[0], parsed.texts("footer")[0])
    table = lines(bench.run("stl_bench", "table", "ramp <= 10", given=text).out)
    held = lines(parsed.texts("pre", "table")[0])
    frame.holds(set(held) - {".."} <= set(table) and held[-1] == table[-1], "margins are lines of the program")


def test_no_false_time_is_painted_true(bench):
    """Whatever falls near each other, over each false time stands a part of the band that says false or both; over a long true one none."""
    dice, plots = random.Random(5), frame.load("page_plot.py")
    recording = type("Recording", (), {"low": 0.0, "high": 90_000.0, "times": [0.0, 90_000.0]})
    for _ in range(200):
        ends, text = sorted(dice.sample(range(90_001), 2 * dice.choice([1, 5, 40, 900]))), []
        false = list(zip(ends[::2], ends[1::2]))
        false = [(a, a if dice.random() < 0.2 else b) for a, b in false]
        plot = plots.Plot(recording, "true", 0)
        plot.verdicts([f"[{a},{b}] false" for a, b in false])
        painted = re.findall(r'class="(?:false|both)" x="([-0-9.]+)" width="([0-9.]+)"', plot.parts[0])
        painted = [(float(x) * 100 - 1.01, (float(x) + float(width)) * 100 + 1.01) for x, width in painted]
        for a, b in false:
            at = a
            while at < b or at == a:
                reach = max((end for begin, end in painted if begin <= at < end), default=None)
                frame.holds(reach is not None, f"{at} of [{a},{b}] is painted true")
                at = max(reach, at + 1)
        for (_, before), (after, _) in zip(false, false[1:]):
            if after - before > 400:
                frame.holds(not any(begin <= (before + after) / 2 + 50 <= end for begin, end in painted), f"({before},{after}) is not painted true")


@frame.slow
@frame.at_most(600)
def test_a_million_rows(bench):
    """At most 10 s where nothing else runs, so at most 12 s of processors, and 500 MB; and a page that a browser takes."""
    dice, value, switch = random.Random(1), 3000, 0
    with open("million.csv", "w") as file:
        file.write("time:2,speed:2,brake:step\n")
        for k in range(1_000_000):
            value = max(0, min(6000, value + dice.randint(-50, 50)))
            switch ^= dice.random() < 0.001
            file.write(f"{k / 100:.2f},{value / 100:.2f},{switch}\n")
    before = resource.getrusage(resource.RUSAGE_CHILDREN)
    text = page(bench, "always slow: speed <= 30\n", "million.csv")
    used = resource.getrusage(resource.RUSAGE_CHILDREN)
    seconds = used.ru_utime + used.ru_stime - before.ru_utime - before.ru_stime
    frame.holds(seconds < 12, f"{seconds:.1f} s of processors")
    frame.holds(used.ru_maxrss < 500_000, f"{used.ru_maxrss} KB")
    frame.holds(len(text) < 6_000_000, f"{len(text)} bytes")


@frame.needs("chromium")
@frame.at_most(600)
def test_the_script_draws_the_same(bench):
    """In the page of each of these recordings the script draws what stands there, to the last digit."""
    for rows in (2, 10, 10_000, 100_000):
        bench.write("some.csv", recording_of(rows, rows))
        same_picture(bench, page(bench, SOME, "some.csv"))
    bench.write("one.csv", "time:1,x:step,y\n2.5,0,-3\n")
    same_picture(bench, page(bench, "always up: x >= 0.5 or y <= -4\n", "one.csv"))
    bench.write("wide.csv", WIDE)
    same_picture(bench, page(bench, "wide: (always[0,1000] eventually[0,1048575] x >= 0) and y >= 0\n", "wide.csv"))
    bench.write("small.csv", "time:6,x:6,y\n0,-0.000001,16\n0.000003,0.000002,-16\n")
    same_picture(bench, page(bench, "r: x >= 0.000001\ns: y <= -7.25 or eventually[0,1] x > 0\nt: eventually[5,6] true\n", "small.csv"))


@frame.needs("chromium")
@frame.at_most(600)
def test_the_script_draws_the_same_of_each_recording(bench):
    """Of each recording that stands, with the requirements that stand beside them."""
    paths = sorted(pathlib.Path("recordings").glob("*.csv"))
    frame.holds(len(paths) > 10, "recordings")
    for path in paths:
        same_picture(bench, bench.tool("page", "recordings/bench.requirements", path).ended(0, None).out)


@frame.needs("chromium")
@frame.at_most(300)
def test_the_same_picture_with_and_without_script(bench):
    """Each pixel of a screenshot."""
    bench.write("some.csv", recording_of(10_000))
    for text in (page(bench, f"settles: {SETTLES}\n", RINGING), page(bench, SOME, "some.csv")):
        bare = re.sub(r"<script>.*?</script>", "", text, flags=re.DOTALL)
        frame.holds(picture(bench, text) == picture(bench, bare), "a pixel differs without the script")
        frame.holds(picture(bench, text) != picture(bench, bare.replace('class="false"', 'class="true"')), "a screenshot tells colours")


@frame.needs("chromium")
@frame.at_most(300)
def test_a_zoom_and_back(bench):
    text = page(bench, f"settles: {SETTLES}\n", RINGING)
    near = dom(bench, text, 'document.querySelector("[data-span]").click()')
    frame.holds("Shown: " in near, "the page says what is shown")
    frame.holds(pictures(near) != pictures(text), "a click on a span zooms")
    frame.same(pictures(dom(bench, text, "zoom(1, 2); zoom(first, last);")), pictures(text))
    frame.same(pictures(dom(bench, text, 'document.querySelector("[data-do=near]").click(); document.querySelector("[data-do=all]").click();')), pictures(text))


@frame.needs("chromium")
@frame.at_most(300)
def test_what_the_mouse_tells(bench):
    """The rows beside it, and the program's own lines."""
    script = 'tell({ clientX: 9, clientY: 9 }, requirements[0], 2.2);'
    told = re.search(r'<div id="told"[^>]*>(.*?)</div>', dom(bench, page(bench, f"settles: {SETTLES}\n", RINGING), script), re.DOTALL)[1]
    told = html.unescape(told).split("\n")
    frame.same(told[:3], ["near 2.2", "in  1.000 at 2.20, 1.000 at 2.25", "out  1.072 at 2.20, 1.036 at 2.25"])
    given = pathlib.Path(RINGING).read_text()
    frame.holds(told[3] in lines(bench.run("stl_bench", "check", SETTLES, given=given).out), told)
    margins = lines(bench.run("stl_bench", "robust", SETTLES, given=given).out)
    frame.holds(any(told[4] == f"margin  {knot}  {piece}" for knot, piece in zip(margins, margins[1:])), told)


@frame.needs("chromium")
@frame.at_most(300)
def test_a_zoom_into_what_is_left_out(bench):
    """A grey box stands for rows that the page does not hold, and `..` between two that do not follow each other."""
    bench.write("long.csv", "time,x,y:step\n" + "".join(f"{k},{k * k % 1000},{k % 7}\n" for k in range(200_000)))
    text = page(bench, "r: x <= 990 and y <= 5\n", "long.csv")
    frame.holds('class="left"' not in "".join(pictures(text)), "the whole picture has no box")
    near = dom(bench, text, "zoom(5000, 5200); tell({ clientX: 9, clientY: 9 }, requirements[0], 5105);")
    signal_x, signal_y, band, margin, _ = pictures(near)
    for drawn in (signal_x, signal_y, margin):
        frame.holds('class="left"' in drawn, "a box for what is left out")
    frame.holds('class="left"' not in band, "verdicts are not thinned")
    frame.holds(" .. " in re.search(r'<div id="told"[^>]*>(.*?)</div>', near, re.DOTALL)[1], "two rows that do not follow each other")
    count = len(re.findall(r'class="false"', band))
    false = [line for line in lines(bench.run("stl_bench", "check", "x <= 990 and y <= 5", given=pathlib.Path("long.csv").read_text()).out) if line.endswith("false")]
    begins = [eval(line[1 : line.index(",")]) for line in false]
    frame.same(count, sum(4999 <= begin <= 5200 for begin in begins), "false spans in the part that is shown")


@frame.needs("chromium")
@frame.at_most(300)
def test_no_script_of_a_word_runs(bench):
    text = page(bench, f"{STOPS}evil: speed <= 10 {EVIL}\n", LATE, "--title", EVIL, status=2)
    found = dom(bench, text, "document.body.dataset.title = document.title")
    title = html.unescape(re.search(r'data-title="([^"]*)"', found)[1])
    frame.same(title, EVIL)
    frame.holds("<img" not in found, "a picture came from a word")


@frame.needs("chromium")
@frame.at_most(300)
def test_it_prints(bench):
    chromium(bench, ["--print-to-pdf=page.pdf", "--no-pdf-header-footer"], page(bench, f"settles: {SETTLES}\n", RINGING))
    printed = pathlib.Path("page.pdf").read_bytes()
    frame.holds(printed.startswith(b"%PDF") and len(re.findall(rb"/Type /Page\b", printed)) == 1, "one sheet")
