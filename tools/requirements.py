"""Requirements from a file, and what stl_bench says of one of them on one recording. The scripts judge and page stand on this.

A file of requirements has one on each line, `NAME: FORMULA`, which asks for the formula at the start, as `stl_bench check` does,
or `always NAME: FORMULA`, which asks for it at every time of the recording. A line that begins with a space goes on with the one
before; `#` begins a comment. After a line `[PATTERN]` requirements are for the recordings whose file name fits the pattern (their
path, where the pattern has a slash); those before the first such line are for all.
"""
import collections
import decimal
import errno
import fnmatch
import hashlib
import os
import re
import signal
import stat
import subprocess
import threading
import time

NAME = re.compile(r"(always\s+)?([A-Za-z0-9_.-]+)\s*:\s*(\S.*)\Z", re.DOTALL)
SPAN = re.compile(r"([\[(])([0-9/]+),([0-9/]+)([\])]) (true|false)")
# The last line of `check`, by its status.
START = {0: "start true", 1: "start false"}
LONGEST_ROW = 4096
LONGEST_FILE = 10_000_000

# A pattern is None where a requirement is for all recordings; a line is the number of the first line in the file.
Requirement = collections.namedtuple("Requirement", "name always formula pattern line")
Span = collections.namedtuple("Span", "text begin end begins ends value")
# A status is None where the program gave none; a fault is why, or the program's line.
Answer = collections.namedtuple("Answer", "status lines fault seconds")


class Refused(Exception):
    """What cannot be read, and where it stands."""


def text_of(path):
    """The text of a file, or of the input where the path is `-`."""
    try:
        with open(0 if path == "-" else path, encoding="utf-8-sig") as file:
            text = file.read(LONGEST_FILE + 1)
    except OSError as why:
        raise Refused(f"{path}: {why.strerror}") from None
    except UnicodeDecodeError:
        raise Refused(f"{path}: is no UTF-8") from None
    if len(text) > LONGEST_FILE:
        raise Refused(f"{path}: more than {LONGEST_FILE} characters")
    return text


def wholes(path, text):
    """The numbered lines of a file without comments and blank ones, each with those that go on with it."""
    found = []
    for number, line in enumerate(text.split("\n"), 1):
        line = line.partition("#")[0].rstrip()
        if "\0" in line:
            raise Refused(f"{path}:{number}: has a byte 0")
        if line[:1].isspace():
            if not found or found[-1][1].startswith("["):
                raise Refused(f"{path}:{number}: goes on with no requirement")
            found[-1][1] += " " + line.strip()
        elif line:
            found.append([number, line])
    return found


def read(path):
    """The requirements of a file, or of the input where the path is `-`."""
    found, pattern, seen = [], None, {}
    for number, line in wholes(path, text_of(path)):
        if line.startswith("["):
            if not line.endswith("]") or len(line) < 3:
                raise Refused(f"{path}:{number}: a section is [PATTERN]")
            pattern = line[1:-1]
            continue
        parts = NAME.match(line)
        if not parts:
            raise Refused(f"{path}:{number}: is neither NAME: FORMULA nor always NAME: FORMULA")
        if (parts[2], pattern) in seen:
            raise Refused(f"{path}:{number}: {parts[2]} stands on line {seen[parts[2], pattern]} already")
        seen[parts[2], pattern] = number
        found.append(Requirement(parts[2], bool(parts[1]), parts[3], pattern, number))
    if not found:
        raise Refused(f"{path}: no requirement")
    return found


def fits(requirement, recording):
    """Whether a requirement is for a recording."""
    pattern = requirement.pattern
    if pattern is None:
        return True
    return fnmatch.fnmatchcase(recording if "/" in pattern else os.path.basename(recording), pattern)


def opened(recording):
    """The bytes of a recording. A pipe is refused: it is asked of more than once, and would be empty the second time."""
    if not stat.S_ISREG(os.stat(recording).st_mode):
        raise OSError(errno.EINVAL, "is no file that can be read twice", recording)
    return open(recording, "rb")


def last_time(recording):
    """The time of the last row as a decimal, or an empty text where there is no such row."""
    with opened(recording) as file:
        end, part = file.seek(0, os.SEEK_END), LONGEST_ROW
        while True:
            part = min(2 * part, end)
            file.seek(end - part)
            rows = [row for row in file.read(part).split(b"\n") if row.strip()]
            if len(rows) > 1 or part == end:
                break
    try:
        return f"{decimal.Decimal(rows[-1].split(b',')[0].decode('ascii')):f}" if rows else ""
    except (decimal.InvalidOperation, UnicodeDecodeError):
        return ""


def throughout(requirement, recording):
    """The formula whose truth at the start is what the requirement asks: for `always` with the time of the last row as bound."""
    return f"always[0,{last_time(recording)}] ({requirement.formula})" if requirement.always else requirement.formula


class Runs:
    """The runs of the program that go on, so that an interrupt ends them."""

    def __init__(self):
        self.lock, self.going, self.stopped = threading.Lock(), set(), False

    def begin(self, words, stdin):
        """A run that has begun."""
        with self.lock:
            if self.stopped:
                raise OSError(errno.EINTR, "stopped", words[0])
            pipes = {"stdin": stdin, "stdout": subprocess.PIPE, "stderr": subprocess.PIPE}
            run = subprocess.Popen(words, encoding="utf-8", errors="replace", **pipes)
            self.going.add(run)
            return run

    def end(self, run):
        """Ends a run, if it still goes on."""
        run.kill()
        run.wait()
        for pipe in (run.stdout, run.stderr):
            pipe.close()
        with self.lock:
            self.going.discard(run)

    def stop(self):
        """Ends all runs; none begins from now on."""
        with self.lock:
            self.stopped = True
            for run in self.going:
                run.kill()


RUNS = Runs()


def ask(program, command, formula, recording, seconds=None, first=False):
    """One run of the program, ended after these seconds. With `first`, it is ended when its first line is read."""
    begun, late = time.monotonic(), threading.Event()
    try:
        with opened(recording) as file:
            run = RUNS.begin([program, command, formula], file)
            clock = threading.Timer(min(seconds or threading.TIMEOUT_MAX, threading.TIMEOUT_MAX), lambda: (late.set(), run.kill()))
            clock.daemon = True
            clock.start()
            try:
                line = run.stdout.readline() if first else ""
                if line:
                    run.kill()
                out, fault = run.communicate()
            finally:
                clock.cancel()
                RUNS.end(run)
    except OSError as why:
        place = "" if why.filename in (recording, None) else f"{why.filename}: "
        return Answer(None, [], place + why.strerror, time.monotonic() - begun)
    status, fault = 0 if line else run.returncode, fault.strip()
    if status < 0:
        ended = f"ended by signal {-status} ({signal.strsignal(-status)})"
        status, fault = None, f"no answer within {seconds:g} s" if late.is_set() else ended
    return Answer(status, (line + out).splitlines(), fault, time.monotonic() - begun)


def digest(path):
    """The SHA-256 of a file, or `unread`."""
    found = hashlib.sha256()
    try:
        with opened(path) as file:
            for part in iter(lambda: file.read(1 << 20), b""):
                found.update(part)
            return found.hexdigest()
    except OSError:
        return "unread"


def spans(lines):
    """The spans that `check` wrote."""
    found = (SPAN.fullmatch(line) for line in lines)
    return [Span(s[0].rpartition(" ")[0], s[2], s[3], s[1] == "[", s[4] == "]", s[5] == "true") for s in found if s]


def first_false(lines):
    """The first span of what `check` wrote at which the formula is false, or None. Of a text with no such span no line is looked at twice."""
    return next((line.rpartition(" ")[0] for line in lines if line.endswith(" false") and line != "start false"), None)
