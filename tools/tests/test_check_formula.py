"""Tests of tools/check_formula, and of what the README and the guide say of formulas."""
import os
import pathlib
import re

import frame

SCRIPT = frame.load("check_formula")
GUIDE, README = "docs/GUIDE.md", str(frame.ROOT / "README.md")
SEEDS = ["always[0,100] (brake >= 1 implies speed <= 10)", "not (x >= 1 until[0,5] 2*y - z < 0.5) or once[1,inf] true", "x == 1 && 0.5*y >= 1e-3 -> G[0,1s] z"]
PIECES = [b"=>", b"&&", b"(", b")", b"[", b"]", b"[0,1]", b" until ", b" and ", b"not ", b"always", b"\xc3\xa9", b"\xff", b"\n", b"1", b".5", b"*", b"-", b"x", b"\xe2\x80\x8b"]


def lines_of(bench, formula):
    """What check_formula writes of a formula, in lines, and whether it is read; called in this process, since many are asked."""
    lines, is_read = SCRIPT.looked_at(bench.program, formula.encode())
    return "\n".join(lines).split("\n"), is_read


def check(bench, formula, *words):
    """A run of check_formula."""
    return bench.tool("check_formula", "--program", bench.program, *words, os.fsdecode(formula))


def shown(bench, formula, *lines):
    """Fails where a formula is refused with other lines than these, or not at all."""
    check(bench, formula).ended(1, "".join(line + "\n" for line in lines))


def table(page, head):
    """The rows of the table of a page with this head, as fields with their texts in backticks."""
    text = pathlib.Path(page).read_text(encoding="utf-8")
    frame.same(text.count(head), 1, f"tables with the head {head}")
    lines = text[text.index(head) :].split("\n\n")[0].split("\n")[2:]
    for line in lines:
        fields = [field.strip() for field in re.split(r"(?<!\\)\|", line)[1:-1]]
        yield [(field.replace("\\|", "|"), [code.replace("\\|", "|") for code in re.findall(r"`([^`]*)`", field)]) for field in fields]


def meant(formula):
    """A formula of the guide's table, with comparisons in the places of F, G and H."""
    return re.sub(r"\b[FGH]\b(?!\[)", "w >= 1", formula)


def test_guide_says_what_the_program_says(bench):
    """Each text of the first field is refused with one of the messages beside it, and each of the last field is read."""
    rows = list(table(GUIDE, "| Written | It says | Write instead |"))
    frame.holds(len(rows) > 15, f"{len(rows)} rows")
    for (_, written), (says, _), (instead, better) in rows:
        for formula in written:
            lines, is_read = lines_of(bench, meant(formula))
            frame.same((is_read, len(lines), lines[2].partition(": ")[2] in says.split("; ")), (False, 4, True), f"{formula}: {lines}")
        for formula in better:
            frame.same(lines_of(bench, meant(formula))[1], True, formula)


def test_readme_says_what_binds_to_what(bench):
    rows = [(example, reading) for _, _, (_, example), (_, reading) in table(README, "| | Operators | For example | is read as |") if reading]
    frame.same(len(rows), 5)
    for (example,), (reading,) in rows:
        frame.same(lines_of(bench, example), ([example, f"it is read as {reading}"], True))


def test_readings(bench):
    for formula, reading in [
        ("not x >= 1 and y >= 1", "(not x >= 1) and y >= 1"),
        ("always[0,1] once x >= 1 or -2*x - y < -0.50", "(always[0,1] once x >= 1) or -2*x - y < -0.5"),
        ("historically ]0,2[ x >= 1 until[0,1] (eventually[0,1] y > 1 or true)", "(historically]0,2[ x >= 1) until[0,1] ((eventually[0,1] y > 1) or true)"),
        ("not (x >= 1 and y >= 1) since not_x >= 1", "(not (x >= 1 and y >= 1)) since not_x >= 1"),
        ("true.x >= 1 implies once_y >= 1", "true.x >= 1 implies once_y >= 1"),
        ("false", "false"),
    ]:
        check(bench, formula).ended(0, f"{formula}\nit is read as {reading}\n")
    check(bench, "-x >= 1").ended(0, "-x >= 1\nit is read as -x >= 1\n")
    check(bench, "-x>=1", "--").ended(0, "-x>=1\nit is read as -x >= 1\n")
    check(bench, "time >= 1").ended(0, "time >= 1\nit is read\n")
    many = " and ".join(f"x{i} >= 1" for i in range(70))
    frame.same(check(bench, many).out.split("\n")[1], "it is read")


def test_the_caret_stands_under_the_character(bench):
    equality = "there is no sign for equality: write x >= 5 and x <= 5"
    accents = "names have letters without accents, digits, _ and . alone: rename the column"
    shown(bench, "x >= 1 and x == 3", "x >= 1 and x == 3", " " * 13 + "^", "formula at 13: bad byte", equality)
    shown(bench, "x >= 1\tand\nx == 3", "x >= 1 and x == 3", " " * 13 + "^", "formula at 13: bad byte", equality)
    shown(bench, "x >= 1 and é >= 3", "x >= 1 and é >= 3", " " * 11 + "^", "formula at 11: bad byte", accents)
    shown(bench, "速度 >= 1", "速度 >= 1", "^", "formula at 0: bad byte", accents)
    shown(bench, "x\u0301 >= 1", "x\\u0301 >= 1", " ^", "formula at 1: bad byte", accents)
    shown(bench, "x\u200b>= 1", "x\\u200b>= 1", " ^", "formula at 1: bad byte", "a character that does not show stands here: write a blank")
    shown(bench, "x >=", "x >=", "    ^", "formula at 4: expected a constant", "a number has to follow the relation: x >= 5")
    shown(bench, b"x >= \xff1", "x >= \\xff1", "     ^", "this byte is no text: the program takes words of UTF-8 alone")
    shown(bench, "", "", "formula: empty", "a formula is a comparison, as x >= 5, or formulas joined by operators")


def test_of_long_formulas_the_part_about_the_place_is_shown(bench):
    for before, after in [(60, 0), (60, 60), (0, 60), (3, 300)]:
        formula = "x >= 1 and " * before + "y == 1" + " and x >= 1" * after
        text, caret, line, _ = check(bench, formula).out.split("\n")[:4]
        frame.holds(len(text) <= 110 and text[caret.index("^") :].startswith("== 1"), f"{text}\n{caret}")
        frame.same(line.split(":")[0], f"formula at {11 * before + 2}")
    frame.same(check(bench, "x" * 9000).out.split("\n")[1], "formula: 9000 bytes")


def test_words_and_programs_that_are_none(bench):
    asked = "check_formula: one formula is asked for, in quotes, and {} words stand here: tools/check_formula [--program FILE] FORMULA"
    for words in ([], ["a", "b"], ["--program", bench.program], ["--program"]):
        bench.tool("check_formula", *words).refused(asked.format(2 if words == ["a", "b"] else 0), 2)
    for program, why in [("nowhere", "No such file or directory"), ("./tools", "Permission denied"), ("recordings/rise.csv", "Permission denied")]:
        bench.tool("check_formula", "--program", program, "x >= 1").refused(f"check_formula: {program}: {why}", 2)
    for program in ("/bin/false", "/bin/true", bench.script("odd", "#!/bin/sh\necho 'formula at x: odd' >&2\nexit 3\n"), bench.script("dies", "#!/bin/sh\nkill -9 $$\n")):
        bench.tool("check_formula", "--program", program, "x >= 1").one_line([2])
    bench.tool("check_formula", "--program", bench.script("text", "no program"), "x >= 1").one_line([2])
    bench.tool("check_formula", "--program", bench.script("no_json", "#!/bin/sh\n[ $1 = json ] && echo '[1]' || exit 4\n"), "x >= 1").one_line([2])
    with open("/dev/full", "wb") as full:
        done = bench.start("python3", "tools/check_formula", "--program", bench.program, "x >= 1", stdout=full)
        _, err = done.communicate(timeout=60)
    frame.same((done.returncode, err.decode()), (2, "check_formula: the output failed: No space left on device\n"))


def test_the_program_is_found(bench):
    run = bench.tool("check_formula", "x == 1")
    frame.same((run.status, run.err), (1, ""))


def test_every_refusal_has_advice(bench):
    """Mutated formulas: each is read, or refused with a caret under a place of it, the program's line and a line of advice."""
    refused = read = 0
    for formula in frame.mutants([seed.encode() for seed in SEEDS], PIECES, 3000, 1):
        lines, is_read = SCRIPT.looked_at(bench.program, formula.replace(b"\0", b""))
        picture = lines[0].split("\n")
        if is_read:
            read += 1
            frame.same((len(picture), lines[1].startswith("it is read")), (1, True), repr(formula))
        elif not lines[-1].startswith("this byte is no text"):
            refused += 1
            has_place = lines[1].startswith("formula at ")
            frame.same((len(lines), lines[2] is None, len(picture)), (3, False, 2 if has_place else 1), repr(formula))
            frame.holds(not has_place or picture[1].index("^") <= len(picture[0]) + 1, repr(lines))
    frame.holds(refused > 500 and read > 20, f"{refused} refused, {read} read")


# Recordings of the guide's table, in its order, each with what the program says of it.
NAME_1, NAME_2, NUMBER_2 = "line 1: field 1: bad name", "line 1: field 2: bad name", "line 2: field 2: bad number"
RECORDINGS = [
    ("\ufefftime,x\n0,1\n", NAME_1), ("time;x\n0;1\n", NAME_1), ("time\tx\n0\t1\n", NAME_1), ('"time","x"\n0,1\n', NAME_1), ("Time,x\n0,1\n", NAME_1),
    ("0,1\n1,2\n", NAME_1), ("# bench 3\ntime,x\n0,1\n", NAME_1), ("\x1f\x8b\x08", NAME_1),
    ("time,x (V)\n0,1\n", NAME_2), ("time,motor-speed\n0,1\n", NAME_2),
    ("time,x:steps\n0,1\n", "line 1: field 2: bad mode"), ("time,x:7\n0,1\n", "line 1: field 2: bad mode"),
    *[(f"time,x\n0,{value}\n", NUMBER_2) for value in ("0.5", "1e-3", "nan", "True", "")], ("time,x\n2026-03-02,1\n", "line 2: field 1: bad number"),
    ("time,x\n-1,1\n", "line 2: field 1: out of range"), ("time:3,x\n1772445600.000,1\n", "line 2: field 1: out of range"),
    ("time,x\n0,16777217\n", "line 2: field 2: out of range"),
    ("time,x\n0,1,\n", "line 2: 3 fields"), ("time,x\n0,1\n0,2\n", "line 3: time not rising"),
    ("", "line 0: no header"), ("time,x\n", "line 1: no rows"), ("time,y\n0,1\n", "line 1: unknown column x"),
]


def test_guide_says_what_the_program_says_of_recordings(bench):
    told = [says for _, (says, _), _ in table(GUIDE, "| In the recording | It says | Do instead |")]
    kinds = {line.rpartition(": ")[2].split(" column ")[0] for says in told for line in says.split("; ")}
    seen = set()
    for recording, line in RECORDINGS:
        frame.same(bench.run("stl_bench", "check", "x >= 1", given=recording).err, line + "\n", repr(recording))
        seen.add(line.rpartition(": ")[2].split(" column ")[0])
    frame.same(seen, kinds, "the messages that were seen and those of the guide")
