#!/usr/bin/env python3
"""Many benches over a Redis server whose judges, and which itself, are killed at random; README.md beside it says how to read the figures.

    bench/soak.py [--benches N] [--lines N] [--judges N] [--kills N] [--restarts N] [--seconds N] [--program FILE]

Each bench sends a recording as tools/example/redis_bench does, and some by that script itself; tools/example/redis_judge judges them. A
reader follows what each bench is told while it comes, and all of it has to be what `watch` tells the bench's own lines, once each. It
needs redis-server, listens on 127.0.0.1 alone, ends after its seconds at the latest, and stops what it started. The status is 0 where
every bench was told so.
"""
import argparse
import concurrent.futures
import os
import pathlib
import random
import resource
import shutil
import signal
import socket
import subprocess
import sys
import tempfile
import threading
import time

ROOT = pathlib.Path(__file__).resolve().parent.parent
EXAMPLE = ROOT / "tools" / "example"
PROGRAM = ROOT / "crates" / "stl_bench" / "out" / "stl_bench"
FORMULA = "eventually[0,2] x >= 5"
BY_SCRIPT = 8  # benches that are processes of redis_bench
sys.path.insert(0, str(EXAMPLE))

import redis_words  # noqa: E402


class Failed(Exception):
    """What went wrong."""


def recording(rows, dice):
    """The lines of a recording; of some a row does not rise."""
    lines = ["time:1,x", *(f"{n * 0.5:.1f},{dice.randint(0, 9)}" for n in range(rows))]
    if rows > 4 and dice.random() < 0.05:
        lines.insert(dice.randint(4, rows), "0.5,3")
    return lines


def watched(lines):
    """What watch tells a recording: its lines, and behind them what it says where it refuses a line."""
    done = subprocess.run(["stl_bench", "watch", FORMULA], input="".join(f"{line}\n" for line in lines).encode(), capture_output=True, timeout=120)
    return (done.stdout + done.stderr).split(b"\n")[:-1]


def free_port():
    with socket.socket() as some:
        some.bind(("127.0.0.1", 0))
        return some.getsockname()[1]


def processor(process):
    """Waits for a process, and gives the seconds of the processor that it and what it waited for took."""
    if process.returncode is not None:
        return 0.0
    _, status, usage = os.wait4(process.pid, 0)
    process.returncode = os.waitstatus_to_exitcode(status)
    return usage.ru_utime + usage.ru_stime


class Server:
    """A Redis server that has on the disk what it answered for."""

    def __init__(self, folder):
        self.folder, self.port, self.took, self.process = folder, free_port(), 0.0, None
        self.host = f"127.0.0.1:{self.port}"
        self.begin()

    def begin(self):
        words = ["--port", self.port, "--bind", "127.0.0.1", "--dir", self.folder, "--save", "", "--appendonly", "yes", "--appendfsync", "always"]
        words = ["redis-server", *map(str, words), "--auto-aof-rewrite-percentage", "0", "--maxmemory-policy", "noeviction", "--loglevel", "warning"]
        self.process = subprocess.Popen(words, stdout=subprocess.DEVNULL)

    def kill(self):
        if self.process:
            self.process.kill()
            self.took += processor(self.process)

    def serves(self):
        """Whether the server answers, and has all lines."""
        try:
            return redis_words.Redis(self.host).ask("PING") == b"PONG"
        except (OSError, redis_words.Refused):
            return False

    def wait(self, until):
        """Waits until the server answers."""
        while not self.serves():
            if time.monotonic() > until:
                raise Failed("redis-server does not answer")
            time.sleep(0.1)


class Judges:
    """A judge for each shard, begun anew wherever it ends."""

    def __init__(self, host, count):
        self.host, self.took, self.begun = host, 0.0, 0
        self.all = [self.begin(shard, count) for shard in range(count)]

    def begin(self, shard, count):
        self.begun += 1
        return subprocess.Popen([sys.executable, str(EXAMPLE / "redis_judge"), self.host, f"{shard}/{count}", FORMULA], stderr=subprocess.DEVNULL)

    @staticmethod
    def has_ended(judge):
        return os.waitid(os.P_PID, judge.pid, os.WEXITED | os.WNOHANG | os.WNOWAIT) is not None

    def keep(self, serves):
        """Begins those anew that have ended, once the server serves."""
        for shard, judge in enumerate(self.all):
            if self.has_ended(judge) and serves():
                self.took += processor(judge)
                self.all[shard] = self.begin(shard, len(self.all))

    def kill(self, dice):
        """Kills one of those that live; whether there is one."""
        living = [judge for judge in self.all if not self.has_ended(judge)]
        if living:
            dice.choice(living).kill()
        return bool(living)

    def end(self):
        for judge in self.all:
            judge.send_signal(signal.SIGINT)
        for judge in self.all:
            self.took += processor(judge)


class Sender(threading.Thread):
    """Sends the lines of all benches, some of each in turn, and some of them twice."""

    def __init__(self, host, recordings, seed, going):
        super().__init__(daemon=True)
        self.host, self.dice, self.going, self.server = host, random.Random(seed), going, None
        self.lines = {tag: [line.encode() for line in lines] + [b"."] for tag, lines in recordings.items()}
        self.at, self.told, self.why = dict.fromkeys(recordings, 0), 0.0, None
        self.total, self.sent = sum(map(len, self.lines.values())), 0
        self.scripts = {tag: subprocess.Popen([sys.executable, str(EXAMPLE / "redis_bench"), host, tag], stdin=subprocess.PIPE) for tag in list(recordings)[:BY_SCRIPT]}

    def run(self):
        try:
            self.announce()
            while self.going() and self.sent < self.total:
                # not far ahead of what was told, so that kills fall into recordings
                if self.sent / self.total > self.told + 0.1:
                    time.sleep(0.05)
                    continue
                left = [tag for tag, at in self.at.items() if at < len(self.lines[tag])]
                self.give(self.dice.sample(left, min(len(left), 100)))
        except (OSError, Failed) as why:
            self.why = why

    def announce(self):
        self.ask([("SADD", "benches", *(tag for tag in self.lines if tag not in self.scripts))])

    def ask(self, commands):
        """The answers, however often the server is away; what was asked may have been done more than once."""
        while self.going():
            try:
                self.server = self.server or redis_words.Redis(self.host)
                answers = self.server.ask_all(commands)
                if not any(isinstance(answer, redis_words.Refused) and not str(answer).startswith(("MISSING", "OTHER")) for answer in answers):
                    return answers
            except OSError:
                self.server = None
            time.sleep(0.1)
        raise Failed("the time is over")

    def give(self, tags):
        """Some lines of each of these benches."""
        commands, upto = [], {}
        for tag in tags:
            at, lines = self.at[tag], self.lines[tag]
            upto[tag] = min(len(lines), at + self.dice.randint(1, 30))
            if tag in self.scripts:
                self.feed(tag, lines[at : upto[tag]])
            else:
                first = max(0, at - 5) if self.dice.random() < 0.05 else at
                commands.append(redis_words.append(f"rows:{tag}", first + 1, lines[first : upto[tag]]))
        for answer in self.ask(commands):
            if isinstance(answer, redis_words.Refused):
                raise Failed(answer)
        for tag, end in upto.items():
            self.sent += end - self.at[tag]
            self.at[tag] = end

    def feed(self, tag, lines):
        """The lines by redis_bench, which sends the last one by itself."""
        pipe = self.scripts[tag].stdin
        pipe.write(b"".join(line + b"\n" for line in lines if line != b"."))
        pipe.flush()
        if lines[-1] == b".":
            pipe.close()

    def end(self):
        for script in self.scripts.values():
            script.kill()
            script.wait()


class Reader(threading.Thread):
    """Follows what each bench is told, as the bench itself would: what comes behind the last line that it had."""

    def __init__(self, host, tags, going):
        super().__init__(daemon=True)
        self.host, self.going, self.why = host, going, None
        self.last, self.told, self.count = dict.fromkeys(tags, 0), {tag: [] for tag in tags}, 0

    def run(self):
        server = None
        while self.going() and self.last:
            try:
                server = server or redis_words.Redis(self.host)
                streams = [*(f"verdicts:{tag}" for tag in self.last), *(f"{number}-0" for number in self.last.values())]
                found = server.ask("XREAD", "COUNT", 500, "BLOCK", 500, "STREAMS", *streams) or []
            except (OSError, redis_words.Refused):
                server = None
                time.sleep(0.1)
                continue
            for stream, entries in found:
                self.take(stream.decode().partition(":")[2], entries)
            time.sleep(0.05)

    def take(self, tag, entries):
        for place, (_, text) in entries:
            number = int(place.partition(b"-")[0])
            if number != self.last[tag] + 1:
                self.why = Failed(f"{tag} was told line {number} after line {self.last[tag]}")
            self.last[tag] = number
            self.told[tag].append(text)
        self.count += len(entries)
        if self.told[tag][-1].startswith((b"start ", b"line ")):
            del self.last[tag]


def words():
    taken = argparse.ArgumentParser(description=__doc__, formatter_class=argparse.RawDescriptionHelpFormatter)
    for name, number in [("benches", 100), ("lines", 20_000), ("judges", 4), ("kills", 10), ("restarts", 2), ("seconds", 600), ("seed", 1)]:
        taken.add_argument(f"--{name}", type=int, default=number, metavar="N", help=f"{number} where it is not said")
    taken.add_argument("--program", type=pathlib.Path, default=PROGRAM, metavar="FILE")
    chosen = taken.parse_args()
    for program in (chosen.program, "redis-server"):
        if shutil.which(program) is None:
            sys.exit(f"soak: there is no {program}")
    return chosen


def points(dice, kills, restarts):
    """When what is killed: parts of all that is to be told, in their order."""
    return sorted([(dice.uniform(0.02, 0.95), "judge") for _ in range(kills)] + [(dice.uniform(0.1, 0.9), "server") for _ in range(restarts)])


def go(chosen, server, judges, sender, reader, expected, until):
    """Kills what is to be killed while the benches are told; how many were killed."""
    dice = random.Random(chosen.seed + 1)
    left, killed = points(dice, chosen.kills, chosen.restarts), {"judge": 0, "server": 0}
    total = sum(map(len, expected.values()))
    shown = time.monotonic()
    while reader.is_alive():
        if time.monotonic() > until:
            raise Failed(f"not ended after {chosen.seconds} s: {sender.sent} lines sent, {reader.count} of {total} told, killed {killed}")
        for part in (sender, reader):
            if part.why:
                raise part.why
        sender.told = reader.count / total
        if left and sender.told >= left[0][0]:
            what = left[0][1]
            if what == "server":
                server.kill()
                server.begin()
            if what == "server" or judges.kill(dice):
                killed[what] += 1
                left.pop(0)
        judges.keep(server.serves)
        if sys.stderr.isatty() or time.monotonic() > shown + 30:
            print(f"{sender.sent} sent, {reader.count} told of {total}, killed {killed}", file=sys.stderr)
            shown = time.monotonic()
        time.sleep(0.1)
    return killed


def compare(host, expected, reader):
    """Fails where a bench was told anything else than watch tells it, to the reader or as it is stored."""
    server = redis_words.Redis(host)
    for tag, lines in expected.items():
        stored = server.ask("XRANGE", f"verdicts:{tag}", "-", "+")
        places = [place for place, _ in stored]
        if places != [b"%d-0" % number for number in range(1, len(lines) + 1)] or [entry[1] for _, entry in stored] != lines:
            raise Failed(f"{tag}: stored is other than what watch tells")
        if reader.told[tag] != lines:
            raise Failed(f"{tag}: was told other than what watch tells")


def soak(chosen, folder):
    begun = time.monotonic()
    until = begun + chosen.seconds
    dice = random.Random(chosen.seed)
    rows = chosen.lines // chosen.benches - 2
    recordings = {f"b{number}": recording(rows, dice) for number in range(chosen.benches)}
    with concurrent.futures.ThreadPoolExecutor(4) as pool:
        expected = dict(zip(recordings, pool.map(watched, recordings.values())))
    ready = time.monotonic()
    server, judges, sender = Server(folder), None, None
    stopped = threading.Event()
    try:
        server.wait(until)
        judges = Judges(server.host, chosen.judges)
        sender = Sender(server.host, recordings, chosen.seed + 2, lambda: not stopped.is_set())
        reader = Reader(server.host, list(recordings), lambda: not stopped.is_set())
        sender.start()
        reader.start()
        killed = go(chosen, server, judges, sender, reader, expected, until)
        told = time.monotonic()
        compare(server.host, expected, reader)
        memory = redis_words.Redis(server.host).ask("INFO", "memory").split(b"used_memory:")[1].split(b"\r")[0]
    finally:
        stopped.set()
        for part in (sender, judges):
            if part:
                part.end()
        server.kill()
    report(chosen, sender, reader, judges, server, killed, told - ready)
    print(f"{int(memory) / (sender.total + reader.count):.0f} bytes of the server's memory a line")


def report(chosen, sender, reader, judges, server, killed, wall):
    own = resource.getrusage(resource.RUSAGE_SELF)
    print(f"{chosen.benches} benches sent {sender.total} lines and were told {reader.count}, each what watch tells it, once")
    print(f"{killed['judge']} judges and {killed['server']} servers were killed; {judges.begun} judges were begun")
    print(f"{wall:.0f} s; seconds of the processor: redis-server {server.took:.1f}, judges {judges.took:.1f} (without the mux of those that were killed), benches and reader {own.ru_utime + own.ru_stime:.1f}")


def main():
    chosen = words()
    signal.signal(signal.SIGTERM, signal.default_int_handler)
    with tempfile.TemporaryDirectory(prefix="soak.") as folder:
        os.mkdir(f"{folder}/bin")
        os.symlink(shutil.which(chosen.program) and chosen.program.resolve(), f"{folder}/bin/stl_bench")
        os.environ["PATH"] = f"{folder}/bin:{os.environ['PATH']}"
        soak(chosen, folder)


if __name__ == "__main__":
    try:
        main()
    except (Failed, redis_words.Refused) as why:
        sys.exit(f"soak: {why}")
    except KeyboardInterrupt:
        sys.exit(130)
