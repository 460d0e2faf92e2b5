"""Benches and judges over mosquitto, and how rows are lost there."""
import contextlib
import subprocess
import sys
import time

import frame
from serving import FORMULA, ended, mixed, mosquitto, recordings, running, wait_for, watched

KEEPS_ALL = ["max_queued_messages 0"]


def publish(port, topic, lines):
    """Publishes some lines in one go."""
    words = ["mosquitto_pub", "-p", str(port), "-q", "2", "-l", "-t", topic]
    subprocess.run(words, input="".join(f"{line}\n" for line in lines).encode(), check=True, timeout=60)


@contextlib.contextmanager
def listening(port, topic, *words):
    """A subscriber that writes `TOPIC PAYLOAD` into heard.txt, begun when the broker has taken it up."""
    with open("heard.txt", "wb") as out:
        heard = subprocess.Popen(["mosquitto_sub", "-p", str(port), "-q", "2", "-t", topic, "-t", "ready", "-F", "%t %p", *words], stdout=out)
    try:
        wait_for(lambda: publish(port, "ready", ["now"]) or "ready now" in text_of("heard.txt"), "no subscriber")
        yield heard
    finally:
        heard.kill()
        heard.wait()


def text_of(name):
    with open(name, encoding="utf-8") as file:
        return file.read()


def subscribed(bench, number):
    """Waits until the broker has so many subscriptions of judges."""
    wait_for(lambda: text_of("server.log").count("as judge_") >= number, "no judge subscribed")


def verdicts():
    """What each bench was told so far."""
    lines = [line.removeprefix("bench/").replace("/verdicts", "", 1) for line in text_of("heard.txt").splitlines() if line.startswith("bench/")]
    return frame.by_tag("\n".join(lines))


@frame.needs("mosquitto", "mosquitto_sub", "mosquitto_pub")
def test_a_judge_for_each_shard(bench):
    """Benches publish beside each other, one of them each line twice; each is told what watch tells it, one row of another is lost."""
    found = recordings(1)
    with mosquitto(bench, *KEEPS_ALL) as port, listening(port, "bench/+/verdicts"):
        judges = [running(sys.executable, "tools/example/mqtt_judge", "127.0.0.1", port, shard, FORMULA, log=f"judge{shard}.log") for shard in (0, 1)]
        with judges[0], judges[1]:
            subscribed(bench, 2)
            sending = []
            for k, (tag, lines) in enumerate(found.items()):
                numbered = [f"{number} {line}" for number, line in enumerate([*lines, "."], 1)]
                numbered = [line for line in numbered for _ in range(2)] if k == 2 else numbered
                numbered = numbered[:10] + numbered[11:] if k == 3 else numbered
                words = ["mosquitto_pub", "-p", str(port), "-q", "2", "-l", "-t", f"rows/{k % 2}/{tag}"]
                sending.append((subprocess.Popen(words, stdin=subprocess.PIPE), "".join(f"{line}\n" for line in numbered).encode()))
            for process, text in sending:
                process.stdin.write(text)
                process.stdin.close()
            for process, _ in sending:
                frame.same(process.wait(60), 0)
            wait_for(lambda: all(ended(verdicts().get(tag, [""])[-1]) for tag in found), "not all benches were told their end", 90)
            told = verdicts()
    for tag, lines in found.items():
        wanted = watched(bench, lines[:10] + ["missing"] if tag == "b3" else lines)
        frame.same(told[tag], wanted, tag)


@frame.needs("mosquitto", "mosquitto_sub", "mosquitto_pub")
def test_a_shared_subscription_tears_recordings_apart(bench):
    """It gives the messages of one topic to its members in turn; in_order says so for each recording, and no verdict at a start is made up."""
    found = recordings(2, 3, 30)
    with mosquitto(bench, *KEEPS_ALL) as port:
        heard = [subprocess.Popen(["mosquitto_sub", "-p", str(port), "-q", "2", "-i", f"judge_{k}", "-t", "$share/judges/rows/+", "-F", "%t %p"], stdout=subprocess.PIPE) for k in (0, 1)]
        try:
            subscribed(bench, 2)
            time.sleep(1)
            for tag, number, line in mixed(found, 3):
                if number == 1:
                    publish(port, f"rows/{tag}", [f"{number} {line}" for number, line in enumerate([*found[tag], "."], 1)])
            time.sleep(3)
        finally:
            for one in heard:
                one.terminate()
        parts = [one.communicate(timeout=20)[0].decode().replace("rows/", "") for one in heard]
    frame.same(sum(part.count("\n") for part in parts), sum(len(lines) + 1 for lines in found.values()), "the lines that came to both")
    for part in parts:
        frame.holds(part, "a member had no line")
        ordered = bench.tool("in_order", given=part)
        told = frame.by_tag(bench.run("stl_bench", "mux", FORMULA, given=ordered.out).out)
        frame.same(sorted(told), sorted(frame.by_tag(part)))
        for tag, lines in told.items():
            frame.holds(lines[-1].startswith("line "), f"{tag} was told {lines}")
    frame.holds(any("is missing" in bench.tool("in_order", given=part).err for part in parts), "no line was missing")


def slow_reader(bench, lines, *configuration):
    """How many of so many lines come to a subscriber that reads nothing at first."""
    with mosquitto(bench, *configuration) as port, listening(port, "rows/0/a") as heard:
        heard.send_signal(19)
        publish(port, "rows/0/a", (f"{number} {'x' * 200}" for number in range(1, lines + 1)))
        heard.send_signal(18)
        seen = -1
        while seen != (now := text_of("heard.txt").count("rows/0/a")):
            seen = now
            time.sleep(3)
        return now


@frame.needs("mosquitto", "mosquitto_sub", "mosquitto_pub")
def test_a_slow_reader_loses_lines_by_default(bench):
    """mosquitto keeps 1,000 messages for it, and drops the others without a word; with max_queued_messages 0 it keeps all."""
    lines = 5_000
    came = slow_reader(bench, lines)
    frame.holds(came < lines, "no line was lost: this machine is too quick for the test")
    frame.same(slow_reader(bench, lines, *KEEPS_ALL), lines)


@frame.needs("mosquitto", "mosquitto_sub", "mosquitto_pub")
def test_a_judge_without_its_broker_ends_with_a_line(bench):
    run = bench.tool("example/mqtt_judge", "127.0.0.1", "1", "0", FORMULA)
    frame.holds(run.status == 1 and "mqtt_judge: the stream ended" in run.err and "Traceback" not in run.err, run.err)
    bench.tool("example/mqtt_judge").refused("usage: mqtt_judge HOST PORT SHARD FORMULA")
