"""Tests of tools/judge and tools/requirements.py. Debian: python3-junitparser, libxml2-utils."""
import os
import pathlib
import pty
import signal
import subprocess
import sys
import time
import xml.etree.ElementTree as xml

import frame

LATE = "recordings/braking_late.csv"
STOPS = "always stops: brake >= 0.5 implies eventually[0,1] speed <= 10\n"
WIDE = "time,x,y\n0,1048576,-1\n1048575,0,1048575\n2097152,1048575,0\n"

# Stands for the program, and is slow where the recording says so in its first line.
SLOW = """#!/bin/sh
read -r first
[ "$first" != slow ] || sleep 1
echo '[0,1] true'
echo 'start true'
"""


def judge(bench, requirements, *words, **how):
    """A run of judge over a file with these requirements."""
    return bench.tool("judge", bench.write("some.requirements", requirements), *words, **how)


def verdicts(run):
    """The words of each line of the table."""
    return [line.split() for line in run.out.splitlines() if " asked: " not in line]


def test_verdicts(bench):
    run = judge(bench, "[rlc*]\nsettles: always[0,10] (in >= 0.5 implies eventually[0,1] always[0,5] (out >= 0.98 and out <= 1.02))\n"
                f"[braking*]\n{STOPS}", "recordings/rlc_damped.csv", "recordings/rlc_ringing.csv", LATE)
    run.ended(1, "holds     settles  recordings/rlc_damped.csv    19/1000\n"
                 "fails     settles  recordings/rlc_ringing.csv   -193/1056     first false on [0,69/32)\n"
                 "fails     stops    recordings/braking_late.csv  -1/2          first false on [1,4/3)\n"
                 "3 asked: 1 hold, 2 fail, 0 unjudged\n")
    judge(bench, STOPS, "recordings/braking.csv").ended(0, "holds     stops  recordings/braking.csv  1/2\n1 asked: 1 hold, 0 fail, 0 unjudged\n")
    run = judge(bench, STOPS, LATE, "--no-margins")
    run.ended(1, f"fails     stops  {LATE}                first false on [1,4/3)\n1 asked: 0 hold, 1 fail, 0 unjudged\n")


def test_every_recording_of_the_folder_is_asked(bench):
    recordings = sorted(str(path) for path in pathlib.Path("recordings").glob("*.csv"))
    run = bench.tool("judge", "recordings/bench.requirements", *recordings, "--jobs", "4")
    frame.same((run.status, run.err), (1, ""), run.out)
    lines = run.out.splitlines()
    frame.holds(lines[-1].endswith(", 0 unjudged"), lines[-1])
    frame.same({line.split()[2] for line in lines[:-1]}, set(recordings))
    broken = {line.split()[2][11:-4] for line in lines if line.startswith("fails")}
    frame.same(broken, {"braking_late", "demo_logic", "door_early", "oven_fast", "phases_skipped", "rise", "rlc_ringing", "switch_hasty"})


def test_a_false_start_and_a_false_time(bench):
    """The start is asked of a plain requirement, and every time of an `always`, whatever the start is."""
    bench.write("a.csv", "time,x\n0,1\n1,1\n2,0\n")
    run = judge(bench, "start: x >= 0.5\nalways all: x >= 0.5\n", "a.csv")
    run.ended(1, "holds     start  a.csv  1/2\nfails     all    a.csv  -1/2          first false on (3/2,2]\n2 asked: 1 hold, 1 fail, 0 unjudged\n")


def test_how_a_file_is_read(bench):
    text = "\ufeff# a comment\r\n\r\nlong: x >= 0 and # the first half\r\n\r\n  # between\r\n\tx <= 1 # the second\r\nalways: x >= 2\r\n"
    text += "[a*.csv]\r\nnot_always : x < 1\r\n[*/a.csv]\r\nalways\tpath:x < 2\r\n[b.csv]\r\nother: x >= 9\r\n"
    bench.write("folder/a.csv", "time,x\n0,1\n")
    run = judge(bench, text, "folder/a.csv", "--part")
    run.ended(1, "holds     long        folder/a.csv  0\nfails     always      folder/a.csv  -1            first false on [0,0]\n"
                 "fails     not_always  folder/a.csv  0             first false on [0,0]\nholds     path        folder/a.csv  1\n"
                 "4 asked: 2 hold, 2 fail, 0 unjudged\n")
    run = bench.tool("judge", "-", "folder/a.csv", "folder/a.csv", given="x: x >= 1\n")
    run.ended(0, "holds     x  folder/a.csv  0\n1 asked: 1 hold, 0 fail, 0 unjudged\n")


def test_a_recording_is_asked_up_to_its_last_row(bench):
    """The bound that `always` asks margins with is the last time, as the row writes it."""
    for last in ("2", "+2", "2.0", " 02 "):
        bench.write("a.csv", f"time:1,x\n0,1\n1,1\r\n{last},0" + "\r\n" * 20000)
        run = judge(bench, "always all: x >= 0.5\n", "a.csv")
        run.ended(1, "fails     all  a.csv  -1/2          first false on (3/2,2]\n1 asked: 0 hold, 1 fail, 0 unjudged\n")


def test_margins_that_are_long_or_infinite(bench):
    bench.write("a.csv", "time:6,x:6\n0,0.3\n1.234567,1\n2,1.5\n")
    run = judge(bench, "long: eventually[0.3,0.7] x >= 2.1\nnone: true\n", "a.csv")
    run.ended(1, "fails     long  a.csv  ~-1.40310     first false on [0,2]\nholds     none  a.csv  inf\n2 asked: 1 hold, 1 fail, 0 unjudged\n")


REFUSED = [
    ("x >= 1\n", "some.requirements:1: is neither NAME: FORMULA nor always NAME: FORMULA"),
    ("a:\n", "some.requirements:1: is neither NAME: FORMULA nor always NAME: FORMULA"),
    ("# one\n\na b: true\n", "some.requirements:3: is neither NAME: FORMULA nor always NAME: FORMULA"),
    ("always a b: true\n", "some.requirements:1: is neither NAME: FORMULA nor always NAME: FORMULA"),
    ("a: true\nb: true\nalways a: x >= 0\n", "some.requirements:3: a stands on line 1 already"),
    ("[*]\na: true\n[*.csv]\na: true\n", "some.requirements:4: a stands on line 2 already for " + LATE),
    ("  x >= 1\n", "some.requirements:1: goes on with no requirement"),
    ("a: true\n[*]\n x >= 1\n", "some.requirements:3: goes on with no requirement"),
    ("[*\na: true\n", "some.requirements:1: a section is [PATTERN]"),
    ("[]\na: true\n", "some.requirements:1: a section is [PATTERN]"),
    ("", "some.requirements: no requirement"),
    ("# none\n[*]\n", "some.requirements: no requirement"),
    ("a: true\0\n", "some.requirements:1: has a byte 0"),
    (b"a: \xff\n", "some.requirements: is no UTF-8"),
    ("[door*]\na: true\n", LATE + ": no requirement is for it"),
    ("[braking*]\nb: true\n[door*]\na: true\n", "some.requirements:4: a: no recording fits [door*] (--part passes over such)"),
]


def test_files_that_are_refused(bench):
    for text, line in REFUSED:
        judge(bench, text, LATE).refused(f"judge: {line}", 2)
    judge(bench, REFUSED[-1][0], LATE, "--part").ended(0, None)
    bench.tool("judge", "/dev/zero", LATE).refused("judge: /dev/zero: more than 10000000 characters", 2)
    bench.tool("judge", "missing", LATE).refused("judge: missing: No such file or directory", 2)
    bench.tool("judge", "recordings", LATE).refused("judge: recordings: Is a directory", 2)


def test_words_that_are_refused(bench):
    judge(bench, STOPS, LATE, "--program", "missing").refused("judge: there is no program missing", 2)
    for words in ([], [LATE, "--jobs", "0"], [LATE, "--jobs", "999"], [LATE, "--seconds", "0"], [LATE, "--seconds", "nan"], [LATE, "--what"]):
        run = judge(bench, STOPS, *words)
        frame.holds(run.status == 2 and not run.out and run.err.splitlines()[-1].startswith("tools/judge: error: "), f"{words}: {run.err}")


def test_a_report_that_cannot_be_written(bench):
    """It is refused before anything is judged."""
    judge(bench, STOPS, LATE, "--junit", "no/report.xml").refused("judge: no/report.xml: cannot be written", 2)
    os.mkdir("folder")
    os.symlink(bench.write("held", "kept"), "link")
    for path in ("folder", "link", "/dev/null", "/dev/stdout"):
        judge(bench, STOPS, LATE, "--junit", path).refused(f"judge: {path}: is no plain file", 2)
    frame.same(pathlib.Path("held").read_text(), "kept")
    judge(bench, STOPS, LATE, "--junit", "").refused("judge: : cannot be written", 2)
    judge(bench, STOPS, LATE, "--junit", "folder/").refused("judge: folder/: is no plain file", 2)


def test_unjudged_wins_and_the_others_are_judged(bench):
    bench.write("bad.csv", "time,brake,speed\n1,0,0\n1,0,0\n")
    bench.write("good.csv", "time,brake,speed\n0,1,0\n")
    os.mkfifo("pipe")
    requirements = STOPS + "words: brake >= and\ncolumn: x >= 1\nfalse: brake < 0\n"
    run = judge(bench, requirements, "missing.csv", "bad.csv", "recordings", "pipe", "good.csv")
    run.ended(2)
    found = [line.split(None, 2) for line in run.out.splitlines()[:-1]]
    said = {(name, rest.split()[0]): (word, " ".join(rest.split()[1:])) for word, name, rest in found}
    for name in ("stops", "words", "column", "false"):
        frame.same(said[name, "missing.csv"], ("unjudged", "No such file or directory"))
        frame.same(said[name, "recordings"], ("unjudged", "is no file that can be read twice"))
        frame.same(said[name, "pipe"], ("unjudged", "is no file that can be read twice"))
    frame.same(said["stops", "bad.csv"], ("unjudged", "line 3: time not rising"))
    frame.same(said["stops", "good.csv"], ("holds", "10"))
    frame.same(said["words", "good.csv"], ("unjudged", "formula at 9: expected a constant"))
    frame.same(said["column", "good.csv"], ("unjudged", "line 1: unknown column x"))
    frame.same(said["false", "good.csv"], ("fails", "-1 first false on [0,0]"))
    frame.same(run.out.splitlines()[-1], "20 asked: 1 hold, 1 fail, 18 unjudged")


def test_a_verdict_stands_without_its_margin_or_explanation(bench):
    """A margin that is too wide, a violation that is too large, and a bound for `always` that is too much."""
    bench.write("wide.csv", WIDE)
    wide = "(always[0,1000] eventually[0,1048575] x >= 0) and y >= 0"
    run = judge(bench, f"wide: {wide}\nalways all: {wide}\n", "wide.csv", "--junit", "report.xml")
    run.ended(1, "fails     wide  wide.csv                first false on [0,1048575/1048576)\nfails     all   wide.csv                first false on [0,1048575/1048576)\n"
                 "2 asked: 0 hold, 2 fail, 0 unjudged\n")
    bench.write("many.csv", "time,x:step\n" + "".join(f"{n},{n % 2}\n" for n in range(40001)))
    run = judge(bench, "always many: x >= 1\n", "many.csv", "--junit", "report.xml")
    run.ended(1, "fails     many  many.csv  -1            first false on [0,1)\n1 asked: 0 hold, 1 fail, 0 unjudged\n")
    frame.holds("not explained: too many cells: 80002" in pathlib.Path("report.xml").read_text(), "the report does not say why it is not explained")
    bench.write("late.csv", "time,x\n4294967290,0\n4294967295,1\n")
    run = judge(bench, "always much: eventually[0,3] x >= 1\n", "late.csv", "--junit", "report.xml")
    run.ended(1, "fails     much  late.csv                first false on [4294967290,4294967292)\n1 asked: 0 hold, 1 fail, 0 unjudged\n")
    frame.holds("not explained: formula: bounds sum to 4294967298" in pathlib.Path("report.xml").read_text(), "the report does not say what sums to too much")


def test_lines_come_in_order(bench):
    """With four runs beside each other and the first one slow, the lines are in the order of the words."""
    program = bench.script("program", SLOW)
    names = [bench.write(f"{n}.csv", "slow\n" if n == 0 else "quick\n") for n in range(8)]
    run = judge(bench, "a: true\n", *names, "--jobs", "4", "--no-margins", "--program", program)
    run.ended(0, "".join(f"holds     a  {name}\n" for name in names) + "8 asked: 8 hold, 0 fail, 0 unjudged\n")


def test_runs_go_on_beside_each_other(bench):
    """Each of four runs waits until all four have begun: so many are enough for `--jobs 4`, and one too many for `--jobs 3`."""
    wait = "#!/bin/sh\necho begun >> begun\nfor n in $(seq 40); do\n  [ $(wc -l < begun) -lt 4 ] || { echo 'start true'; exit 0; }\n  sleep 0.1\ndone\nexit 9\n"
    program = bench.script("program", wait)
    for jobs, status in (("4", 0), ("3", 2)):
        bench.write("begun", "")
        run = judge(bench, "a: true\nb: true\nc: true\nd: true\n", LATE, "--jobs", jobs, "--no-margins", "--program", program)
        frame.same(run.status, status, f"--jobs {jobs}: {run.out}")


def test_the_limit_of_time(bench):
    program = bench.script("program", SLOW.replace("sleep 1", "exec sleep 60"))
    bench.write("slow.csv", "slow\n")
    bench.write("quick.csv", "quick\n")
    run = judge(bench, "a: true\n", "slow.csv", "quick.csv", "--seconds", "2.5", "--program", program, "--junit", "report.xml", seconds=40)
    run.ended(2, "unjudged  a  slow.csv                 no answer within 2.5 s\nholds     a  quick.csv  true\n2 asked: 1 hold, 0 fail, 1 unjudged\n")
    error = xml.parse("report.xml").find(".//error")
    frame.same((error.get("type"), error.get("message")), ("no answer", "no answer within 2.5 s"))


def test_a_program_that_dies(bench):
    program = bench.script("program", "#!/bin/sh\necho '[0,1] true'\necho 'start true'\nkill -SEGV $$\n")
    run = judge(bench, "a: true\n", LATE, "--program", program)
    run.ended(2, f"unjudged  a  {LATE}                ended by signal 11 (Segmentation fault)\n1 asked: 0 hold, 0 fail, 1 unjudged\n")
    program = bench.script("nothing", "no program\n")
    run = judge(bench, "a: true\n", LATE, "--program", program)
    frame.holds(run.status == 2 and "Exec format error" in run.out and not run.err, run.out + run.err)


def test_another_program_judges_nothing(bench):
    """A status of 0 or 1 is a verdict only with the line that goes with it."""
    for text in ("exit 0", "exit 1", "echo '[0,1] true'", "echo 'start false'", "echo 'start true'; exit 1", "echo 'start true'; echo more"):
        program = bench.script("program", f"#!/bin/sh\n{text}\n")
        for asked in ("a: true\n", "always a: true\n"):
            run = judge(bench, asked, LATE, "--program", program)
            run.ended(2, f"unjudged  a  {LATE}                {program} is not stl_bench\n1 asked: 0 hold, 0 fail, 1 unjudged\n")


def interrupted(bench, number):
    """Interrupts judge by a signal while three programs run."""
    program = bench.script("program", "#!/bin/sh\necho $$ >> started\nexec sleep 100\n")
    names = [bench.write(f"recordings_{n}/a.csv", "time,x\n0,0\n") for n in range(6)]
    bench.write("out/report.xml", "an old one")
    bench.write("some.requirements", "a: true\n")
    started = pathlib.Path(bench.write("started", ""))
    run = bench.start(sys.executable, "tools/judge", "some.requirements", *names, "--jobs", "3", "--program", program, "--junit", "out/report.xml")
    for _ in range(2400):
        time.sleep(0.05)
        if len(started.read_text().split()) == 3:
            break
    os.kill(run.pid, number)
    out, err = run.communicate(timeout=120)
    frame.same((run.returncode, out, err, os.listdir("out")), (130, b"", b"", []), "the status, output, error stream, and what is left")
    for child in started.read_text().split():
        frame.holds(not os.path.exists(f"/proc/{child}"), f"the program {child} goes on")


def test_an_interrupt_leaves_no_report(bench):
    """Nor one of a run before, nor a part of one, nor a program that goes on."""
    interrupted(bench, signal.SIGINT)
    interrupted(bench, signal.SIGTERM)


def test_outputs_that_fail(bench):
    bench.write("some.requirements", STOPS)
    words = [sys.executable, "tools/judge", "some.requirements", LATE, "--junit", "report.xml"]
    with open("/dev/full", "wb") as full:
        run = subprocess.run(words, stdout=full, stderr=subprocess.PIPE, timeout=60)
    frame.same((run.returncode, run.stderr), (2, b"judge: the output: No space left on device\n"))
    run = bench.start(*words)
    run.stdout.close()
    frame.same(run.stderr.read(), b"judge: the output: Broken pipe\n")
    frame.same((run.wait(20), os.path.exists("report.xml")), (2, False), "the status, and whether there is a report")
    for closing in ("<&-", ">&-", "2>&-", "<&- >&- 2>&-"):
        run = bench.run("sh", "-c", f'"$@" {closing}', "sh", *words)
        frame.same((run.status, run.err), (1, ""), closing)


def test_progress_on_a_terminal(bench):
    """It is one line on the error stream, which is wiped, and none where that is no terminal."""
    program = bench.script("program", SLOW)
    bench.write("some.requirements", "a: true\nb: true\n")
    ours, theirs = pty.openpty()
    words = [sys.executable, "tools/judge", "some.requirements", bench.write("slow.csv", "slow\n"), "--no-margins", "--program", program]
    run = subprocess.run(words, stdout=subprocess.PIPE, stderr=theirs, timeout=60)
    os.close(theirs)
    seen = os.read(ours, 65536)
    frame.same(run.stdout.splitlines()[-1], b"2 asked: 2 hold, 0 fail, 0 unjudged")
    for part in (b"0 of 2 judged", b"1 of 2 judged"):
        frame.holds(part in seen, f"{part} is not in {seen}")
    frame.holds(seen.endswith(b"\r\x1b[K") and b"\n" not in seen, f"the line is not wiped: {seen}")


EVIL = 'a <b> & "c" \x01\x1b[31m\n\x7f \udcff].csv'


def evil_report(bench):
    """A report whose names and texts have what XML cannot hold or keeps for itself."""
    os.mkdir("deep.er")
    for path in (EVIL, "deep.er/b.x.csv"):
        with open(path, "w", encoding="utf-8") as file:
            file.write("time,x\n0,1\n1,0\n")
    text = "[*]\nlow: x < 1 and x >= 0\nalways all: x < 0.5\nholds: x >= 0\nnot_one: ]]> <x> & \x02\x85\ufffe\n"
    run = judge(bench, text, EVIL, "deep.er/b.x.csv", "missing", "--junit", "report.xml")
    frame.same((run.status, run.err, run.out.count("\n")), (2, "", 13), run.out)
    frame.holds(all(c.isprintable() or c == "\n" for c in run.out), "the table has bytes that are no text")
    return "report.xml"


def test_the_report_is_read_back(bench):
    top = xml.parse(evil_report(bench)).getroot()
    frame.same({name: top.get(name) for name in ("tests", "failures", "errors", "skipped")}, {"tests": "12", "failures": "4", "errors": "6", "skipped": "0"})
    suites = top.findall("testsuite")
    frame.same([suite.get("name") for suite in suites], ['a <b> & "c" ??[31m?? ?].csv', "deep.er/b.x.csv", "missing"])
    frame.same([suite.get("failures") + suite.get("errors") for suite in suites], ["21", "21", "04"])
    frame.same([property.get("value") for property in suites[2].iter("property")][0], "unread")
    frame.same(len([property.get("value") for property in suites[1].iter("property")][0]), 64)
    cases = suites[1].findall("testcase")
    frame.same([(case.get("classname"), case.get("name"), case.get("file"), case.get("line")) for case in cases],
               [("deep_er.b_x", name, "some.requirements", line) for name, line in [("low", "2"), ("all", "3"), ("holds", "4"), ("not_one", "5")]])
    frame.same([[part.tag for part in case] for case in cases], [["failure", "system-out"], ["failure", "system-out"], ["system-out"], ["error", "system-out"]])
    frame.same(cases[1][0].attrib, {"type": "requirement", "message": "first false on [0,1/2], margin -1/2"})
    frame.same(cases[1][0].text, "always x < 0.5\nx < 0.5 false on [0,0]")
    frame.same(cases[2][0].text, "x >= 0\nmargin 1")
    frame.same((cases[3][0].get("type"), cases[3][0].get("message")), ("status 3", "formula at 0: expected an operand"))
    frame.same(cases[3][0].text, "]]> <x> & ?\x85?\nformula at 0: expected an operand")
    frame.same(suites[2].find("testcase/error").attrib, {"type": "no answer", "message": "No such file or directory"})
    frame.same([path for path in os.listdir(".") if path.startswith("tmp")], [], "what is left beside the report")


@frame.needs("xmllint")
def test_the_report_by_xmllint(bench):
    bench.run("xmllint", "--noout", evil_report(bench)).ended(0, "")


@frame.needs(modules=["junitparser"])
def test_the_report_by_junitparser(bench):
    evil_report(bench)
    script = "import junitparser\nreport = junitparser.JUnitXml.fromfile('report.xml')\nprint(report.tests, report.failures, report.errors, report.skipped)\n"
    script += "for suite in report:\n  for case in suite:\n    print(repr(suite.name), case.classname, case.name, [type(part).__name__ for part in case.result], bool(case.system_out))\n"
    run = bench.run(frame.python_with("junitparser"), "-c", script).ended(0, None)
    lines = run.out.splitlines()
    frame.same(lines[0], "12 4 6 0")
    frame.same(lines[5:9], [f"'deep.er/b.x.csv' deep_er.b_x {name} {kind} True" for name, kind in
                            [("low", "['Failure']"), ("all", "['Failure']"), ("holds", "[]"), ("not_one", "['Error']")]])


def test_reports_say_the_same_of_the_same(bench):
    """But for times, so that readers find a case again in the next run."""
    judge(bench, STOPS, LATE, "--junit", "one.xml")
    judge(bench, STOPS, LATE, "--junit", "two.xml", "--jobs", "4")
    ones, twos = ([{**part.attrib, "time": ""} for part in xml.parse(file).iter()] for file in ("one.xml", "two.xml"))
    frame.same(ones, twos)
    mask = os.umask(0)
    os.umask(mask)
    frame.same(os.stat("one.xml").st_mode & 0o777, 0o666 & ~mask, "the mode of the report")


def test_an_array_of_slurm(bench):
    """The tasks of the example judge each recording once, and the greatest of their statuses is that of one run over all."""
    os.symlink("recordings/bench.requirements", "bench.requirements")
    os.mkdir("out")
    recordings = sorted(str(path) for path in pathlib.Path("recordings").glob("*.csv"))
    bench.write("list", "\n".join(recordings) + "\n")
    runs = [bench.run("tools/example/judge_array", env={**os.environ, "SLURM_ARRAY_TASK_ID": str(task), "SLURM_ARRAY_TASK_COUNT": "20"}) for task in range(20)]
    frame.same([run.err for run in runs], [""] * 20)
    frame.same(max(run.status for run in runs), 1)
    whole = bench.tool("judge", "bench.requirements", *recordings)
    frame.same(sorted(line for run in runs for line in verdicts(run)), sorted(verdicts(whole)))
    frame.same(sorted(suite.get("name") for path in pathlib.Path("out").iterdir() for suite in xml.parse(path).iter("testsuite")), recordings)


@frame.needs("parallel")
def test_a_folder_by_parallel(bench):
    """The guide's line without its hosts: the same lines in the same order, and the worst status from the log."""
    os.symlink("recordings/bench.requirements", "bench.requirements")
    recordings = sorted(str(path) for path in pathlib.Path("recordings").glob("*.csv"))
    words = ["--jobs", "4", "--max-args", "5", "--joblog", "jobs.log", "--keep-order"]
    run = bench.run("parallel", *words, "mkdir -p out; tools/judge --part --junit out/{#}.xml bench.requirements {}", ":::", *recordings)
    frame.same(verdicts(run), verdicts(bench.tool("judge", "bench.requirements", *recordings)))
    frame.same(bench.run("awk", "NR > 1 && $7 > worst { worst = $7 } END { exit worst }", "jobs.log").status, 1)
    frame.same(len(os.listdir("out")), -(-len(recordings) // 5))


def test_mutated_files(bench):
    """10,000 files of requirements are read or refused in a line, and those that are read can be asked."""
    requirements = frame.load("requirements.py")
    good = (frame.ROOT / "recordings" / "bench.requirements").read_bytes()
    texts = [good, STOPS.encode(), b"[a*]\na: x >= 1\n  and y\n[b/[a-z]?]\nalways a: true # b\n"]
    pieces = [b"[", b"]", b"\n", b"\r\n", b"\n ", b"always ", b": ", b":", b"#", b"\0", b"\xff", "\u2028\u00a0".encode(), b"*", b"[!]", b"[z-a]", b"\n[", b"]\n"]
    read, refused, held = 0, 0, frame.Held()
    for text in frame.mutants(texts, pieces, 10_000, 7):
        try:
            found = requirements.read(held.write(text))
        except requirements.Refused as why:
            frame.holds(str(why).startswith(held.path + ":") and "\n" not in str(why), f"{text}: {why}")
            refused += 1
            continue
        read += 1
        for requirement in found:
            requirements.fits(requirement, "b/a.csv")
            frame.holds("\0" not in requirement.formula and requirement.name and text.count(b"\n") + 1 >= requirement.line, f"{text}: {requirement}")
    frame.holds(read > 1000 and refused > 1000, f"{read} were read and {refused} refused: the mutants show little")


@frame.at_most(300)
@frame.slow
def test_mutated_files_and_recordings_as_runs(bench):
    """Whole runs over mutated files and recordings end with a verdict or a line."""
    good = [(frame.ROOT / "recordings" / name).read_bytes() for name in ("braking.csv", "braking_late.csv")]
    pieces = [b",", b"\n", b":", b"-", b"9999999999", b"time", b"\0", b"\xff"]
    asked = frame.mutants([STOPS.encode() + b"[braking*]\nlow: speed <= 10\n"], [b"[", b"]", b"\n", b":", b"always ", b" ", b"\0", b"\xff"], 60, 8)
    for requirements, recording in zip(asked, frame.mutants(good, pieces, 60, 9)):
        bench.write("braking.csv", recording)
        judge(bench, requirements, "braking.csv", "--part", "--seconds", "20", "--junit", "report.xml").one_line({0, 1, 2})
