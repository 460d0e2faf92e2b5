"""What the tests of the scripts in tools/ share; tools/try_tools finds and runs them.

A test is a function `test_..(bench)` of a file test_*.py beside this one. It fails by an exception: `same` and `holds` raise one that
says what was seen. It runs in a process and a folder of its own, which is the working directory: in it stand tools/, recordings/ and
docs/ of this checkout, and stl_bench is in the path. What it starts it ends; what is left over at its end is killed.
"""
import functools
import importlib.machinery
import importlib.util
import os
import pathlib
import random
import shutil
import signal
import subprocess
import sys

ROOT = pathlib.Path(__file__).resolve().parent.parent.parent
TOOLS = ROOT / "tools"


class Failed(Exception):
    """What a test found wrong."""


class LeftOut(Exception):
    """What a test lacks that it could see only when it ran."""


def needs(*tools, modules=()):
    """Leaves a test out where one of these programs is not in the path, or where no Python has all these modules."""
    def marked(test):
        test.tools, test.modules = tools, tuple(modules)
        return test
    return marked


def slow(test):
    """Leaves a test out of a quick run."""
    test.slow = True
    return test


def at_most(seconds):
    """Gives a test another limit of time than the driver's."""
    def marked(test):
        test.seconds = seconds
        return test
    return marked


@functools.cache
def python_with(*modules):
    """A Python that has these modules: the one that runs, or the system's; None where neither has them."""
    for python in (sys.executable, "/usr/bin/python3"):
        if os.path.exists(python) and not subprocess.run([python, "-c", f"import {', '.join(modules)}"], capture_output=True, timeout=60).returncode:
            return python
    return None


def lacking(test):
    """What a test needs and is not there, or None."""
    for tool in getattr(test, "tools", ()):
        if shutil.which(tool) is None:
            return f"there is no {tool}"
    modules = getattr(test, "modules", ())
    return f"no Python has {', '.join(modules)}" if modules and python_with(*modules) is None else None


def load(name):
    """A script of tools/ as a module, for tests that call its functions."""
    if str(TOOLS) not in sys.path:
        sys.path.insert(0, str(TOOLS))
    loader = importlib.machinery.SourceFileLoader(name, str(TOOLS / name))
    module = importlib.util.module_from_spec(importlib.util.spec_from_loader(name, loader))
    loader.exec_module(module)
    return module


def same(seen, wanted, about=""):
    """Fails where two values differ."""
    if seen != wanted:
        raise Failed(f"{about or 'a value'}\n  is\n{seen}\n  and has to be\n{wanted}")


def holds(truth, about):
    """Fails where something is not so."""
    if not truth:
        raise Failed(about)


def by_tag(text):
    """The lines behind each tag."""
    found = {}
    for line in text.splitlines():
        tag, _, rest = line.partition(" ")
        found.setdefault(tag, []).append(rest)
    return found


def mutants(texts, pieces, count, seed, most=4):
    """Texts as bytes, each with one to `most` places cut, doubled, overwritten by a piece or a byte, or exchanged, the same ones for one seed."""
    dice = random.Random(seed)
    for _ in range(count):
        text = bytearray(dice.choice(texts))
        for _ in range(dice.randint(1, most)):
            at, end = sorted(dice.randint(0, len(text)) for _ in range(2))
            end = min(end, at + 12)
            way = dice.randrange(5)
            if way == 0:
                del text[at:end]
            elif way == 1:
                text[at:at] = text[at:end]
            elif way == 2:
                text[at : at + dice.randint(0, 3)] = dice.choice(pieces)
            elif way == 3:
                text[at : at + 1] = bytes([dice.randrange(256)])
            else:
                text = text[end:] + text[:end]
        yield bytes(text)


class Held:
    """A file in memory, for what reads many files by their path, one after the other."""

    def __init__(self):
        self.file = os.memfd_create("held")
        self.path = f"/proc/self/fd/{self.file}"

    def write(self, data):
        """The path of the file, which now holds these bytes alone."""
        os.ftruncate(self.file, 0)
        os.pwrite(self.file, data, 0)
        return self.path


class Run:
    """What a run wrote and how it ended."""

    def __init__(self, words, status, out, err):
        self.words, self.status, self.out, self.err = words, status, out, err

    def ended(self, status, out=None, err=""):
        """Fails where the run ended otherwise. An output of None is not looked at."""
        about = f"{self.words}\n  the status, output and error stream"
        same((self.status, self.out if out is not None else None, self.err), (status, out, err), about)
        return self

    def refused(self, line, status=1):
        """Fails where the run was not refused with this line, or wrote anything before it."""
        return self.ended(status, "", line + "\n")

    def one_line(self, statuses):
        """Fails where the run ended with another status, with a traceback, or with more than a line on the error stream."""
        about = f"{self.words}: {self.status}\n{self.err}"
        holds(self.status in statuses and "Traceback" not in self.err and self.err.count("\n") <= 1, about)
        return self


class Bench:
    """The folder of one test, with the program in the path."""

    def __init__(self, program, folder):
        self.program, self.folder = str(program), pathlib.Path(folder)
        for name in ("tools", "recordings", "docs"):
            (self.folder / name).symlink_to(ROOT / name)
        (self.folder / "bin").mkdir()
        (self.folder / "bin" / "stl_bench").symlink_to(program)
        os.environ["PATH"] = f"{self.folder / 'bin'}:{os.environ['PATH']}"
        os.environ["PYTHONPATH"] = str(TOOLS)
        os.environ["LC_ALL"] = "C.UTF-8"
        os.chdir(self.folder)

    def write(self, name, text):
        """A file in the folder; its name."""
        path = self.folder / name
        path.parent.mkdir(parents=True, exist_ok=True)
        path.write_bytes(text if isinstance(text, bytes) else text.encode())
        return name

    def script(self, name, text):
        """A program in the folder, such as one that stands for stl_bench; its path."""
        self.write(name, text)
        (self.folder / name).chmod(0o755)
        return str(self.folder / name)

    def run(self, *words, given="", seconds=120, **how):
        """One run with this input. It is killed, and the test fails, where it takes longer than these seconds."""
        words = [str(word) for word in words]
        data = given if isinstance(given, bytes) else given.encode()
        try:
            done = subprocess.run(words, input=data, capture_output=True, timeout=seconds, **how)
        except subprocess.TimeoutExpired:
            raise Failed(f"{words} took more than {seconds} s") from None
        return Run(words, done.returncode, done.stdout.decode(errors="replace"), done.stderr.decode(errors="replace"))

    def tool(self, name, *words, **how):
        """One run of a script of tools/ by the Python that runs the tests."""
        return self.run(sys.executable, f"tools/{name}", *words, **how)

    def start(self, *words, **how):
        """A run that goes on, with pipes for all streams and the usual answer to an interrupt, which a shell takes from its background jobs."""
        pipes = {"stdin": subprocess.PIPE, "stdout": subprocess.PIPE, "stderr": subprocess.PIPE, **how}
        return subprocess.Popen([str(word) for word in words], preexec_fn=lambda: signal.signal(signal.SIGINT, signal.default_int_handler), **pipes)
