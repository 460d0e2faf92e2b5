"""What the tests of tools/try_fleet share: ports, servers that are ended, recordings in one stream."""
import contextlib
import os
import random
import re
import socket
import subprocess
import time

import frame

FORMULA = "eventually[0,2] x >= 5"


def free_port():
    """A port of 127.0.0.1 on which nothing listens."""
    with socket.socket() as some:
        some.bind(("127.0.0.1", 0))
        return some.getsockname()[1]


def wait_for(truth, about, seconds=60):
    """Waits until something is so."""
    until = time.monotonic() + seconds
    while not truth():
        frame.holds(time.monotonic() < until, f"{about} after {seconds} s")
        time.sleep(0.1)


def listens(port):
    """Whether something listens on a port of 127.0.0.1."""
    with socket.socket() as some:
        return some.connect_ex(("127.0.0.1", port)) == 0


@contextlib.contextmanager
def running(*words, log="server.log", **how):
    """A process that is ended behind the block."""
    with open(log, "ab") as out:
        process = subprocess.Popen([str(word) for word in words], stdin=subprocess.DEVNULL, stdout=out, stderr=out, **how)
    try:
        yield process
    finally:
        process.terminate()
        try:
            process.wait(10)
        except subprocess.TimeoutExpired:
            process.kill()
            process.wait()


@contextlib.contextmanager
def mosquitto(bench, *lines):
    """A broker with these lines of configuration; its port."""
    port = free_port()
    bench.write("mosquitto.conf", "\n".join([f"listener {port} 127.0.0.1", "allow_anonymous true", *lines]) + "\n")
    with running("mosquitto", "-c", "mosquitto.conf"):
        wait_for(lambda: listens(port), "no mosquitto")
        yield port


@contextlib.contextmanager
def redis(bench, *words):
    """A Redis server that has on the disk what it answered for; its place as HOST:PORT."""
    port = free_port()
    os.makedirs("redis", exist_ok=True)
    how = ["--port", port, "--bind", "127.0.0.1", "--dir", "redis", "--save", "", "--appendonly", "yes", "--appendfsync", "always"]
    with running("redis-server", *how, *words):
        wait_for(lambda: listens(port), "no redis-server")
        yield f"127.0.0.1:{port}"


def recordings(seed, benches=8, rows=40):
    """The lines of some benches by their tags; one of them has a row that does not rise."""
    dice = random.Random(seed)
    found = {f"b{k}": ["time:1,x", *(f"{n * 0.5:.1f},{dice.randint(0, 9)}" for n in range(rows))] for k in range(benches)}
    found["b1"].insert(5, "0.1,3")
    return found


def mixed(found, seed):
    """The benches' lines between each other at random, as TAG NUMBER LINE, each with its `.` at the end."""
    dice = random.Random(seed)
    left = {tag: list(enumerate([*lines, "."], 1)) for tag, lines in found.items()}
    while left:
        tag = dice.choice(sorted(left))
        yield (tag, *left[tag].pop(0))
        if not left[tag]:
            del left[tag]


def watched(bench, lines, formula=FORMULA):
    """What watch tells a recording: its lines, and the line by which it is refused."""
    run = bench.run("stl_bench", "watch", formula, given="".join(f"{line}\n" for line in lines))
    return (run.out + run.err).splitlines()


def ended(line):
    """Whether a bench is told nothing after this line."""
    return re.match(r"start |line ", line) is not None
