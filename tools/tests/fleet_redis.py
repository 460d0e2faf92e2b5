"""Benches and judges over a Redis server, and what is seen where lines are dealt by a consumer group, or the server is full."""
import sys
import time

import frame
from serving import FORMULA, mixed, recordings, redis, running, wait_for, watched

SOAK = frame.ROOT / "bench" / "soak.py"
sys.path.insert(0, str(frame.TOOLS / "example"))


def server_at(host):
    """A connection to a server that answers."""
    import redis_words

    wait_for(lambda: redis_words.Redis(host).ask("PING"), "no answer")
    return redis_words.Redis(host)


def stored(server, tag):
    """What is stored of a bench's verdicts: the lines, which have to be numbered from 1."""
    entries = server.ask("XRANGE", f"verdicts:{tag}", "-", "+")
    frame.same([place for place, _ in entries], [b"%d-0" % number for number in range(1, len(entries) + 1)])
    return [fields[1].decode() for _, fields in entries]


@frame.at_most(400)
@frame.needs("redis-server")
def test_judges_and_servers_killed_at_random(bench):
    """100 benches, 20,000 lines, 4 judges; 10 judges and 2 servers are killed: each bench is told what watch tells it, once."""
    run = bench.run(sys.executable, SOAK, "--benches", 100, "--lines", 20_000, "--kills", 10, "--restarts", 2, "--seconds", 300, "--program", bench.program, seconds=360)
    frame.same(run.status, 0, run.err)
    frame.holds(run.out.startswith("100 benches sent ") and "\n10 judges and 2 servers were killed; " in run.out, run.out)


@frame.needs("redis-server")
def test_more_recordings_than_one_mux_takes(bench):
    """1,100 short recordings in one shard, and two judges on it at once."""
    formula = "x >= 5"
    found = {f"run{k}": ["time,x", f"0,{k % 10}", f"1,{k % 7}"] for k in range(1100)}
    with redis(bench) as host:
        server = server_at(host)
        import redis_words

        server.ask_all([redis_words.append(f"rows:{tag}", 1, [*lines, "."]) for tag, lines in found.items()])
        server.ask("SADD", "benches", *found)
        with running(sys.executable, "tools/example/redis_judge", host, "0/1", formula), running(sys.executable, "tools/example/redis_judge", host, "0/1", formula):
            wait_for(lambda: server.ask("SCARD", "judged") == len(found), "not all were judged", 120)
        for k in range(70):
            frame.same(stored(server, f"run{k}"), watched(bench, found[f"run{k}"], formula), f"run{k}")
        frame.same(sum(len(stored(server, tag)) > 0 for tag in found), len(found))


@frame.needs("redis-server")
def test_a_line_is_stored_behind_the_one_before_it(bench):
    """Once each; a line that is another one than is stored, or whose predecessor is missing, is refused, and nothing behind it is stored."""
    with redis(bench) as host:
        server = server_at(host)
        import redis_words

        def told(number, *lines):
            return str(server.ask_all([redis_words.append("rows:a", number, lines)])[0])

        frame.same(told(1, "time,x", "0,1"), "2")
        frame.same(told(1, "time,x", "0,1", "1,2"), "3")
        frame.same(told(5, "3,4", "4,5"), "MISSING line 4")
        frame.same(told(3, "1,3", "2,4"), "OTHER line 3 was stored")
        frame.same(told(4, "2,4"), "4")
        frame.same([fields[1] for _, fields in server.ask("XRANGE", "rows:a", "-", "+")], [b"time,x", b"0,1", b"1,2", b"2,4"])


@frame.needs("redis-server")
def test_a_full_server_makes_the_bench_wait(bench):
    """Its lines come when there is room again, in order and none lost."""
    lines = ["time,x", *(f"{k},{k % 10}" for k in range(3000))]
    with redis(bench) as host:
        server = server_at(host)
        server.ask("SET", "ballast", "x" * 1_000_000)
        # what the server holds without the ballast comes on top, so it is full
        server.ask("CONFIG", "SET", "maxmemory", 1_000_000)
        sending = bench.start(sys.executable, "tools/example/redis_bench", host, "a")
        sending.stdin.write("".join(f"{line}\n" for line in lines).encode())
        sending.stdin.close()
        time.sleep(3)
        frame.same((sending.poll(), server.ask("XLEN", "rows:a")), (None, 0))
        server.ask("CONFIG", "SET", "maxmemory", 0)
        frame.same(sending.wait(60), 0)
        frame.same([fields[1].decode() for _, fields in server.ask("XRANGE", "rows:a", "-", "+")], [*lines, "."])


@frame.needs("redis-server")
def test_a_consumer_group_misleads(bench):
    """Of one stream its two members have some lines each, and who begins anew is given none of those that it had acknowledged."""
    found = recordings(4, 4, 20)
    lines = list(mixed(found, 5))
    with redis(bench) as host:
        server = server_at(host)
        for tag, number, line in lines:
            server.ask("XADD", "all", "*", "l", f"{tag} {number} {line}")
        server.ask("XGROUP", "CREATE", "all", "judges", "0")
        had = {member: [] for member in ("one", "two")}
        while True:
            taken = [(member, server.ask("XREADGROUP", "GROUP", "judges", member, "COUNT", 3, "STREAMS", "all", ">")) for member in had]
            for member, answer in taken:
                for place, (_, text) in answer[0][1] if answer else []:
                    had[member].append(text.decode())
                    server.ask("XACK", "all", "judges", place)
            if not any(answer for _, answer in taken):
                break
        frame.same(sum(map(len, had.values())), len(lines))
        for some in had.values():
            ordered = bench.tool("in_order", given="".join(f"{line}\n" for line in some))
            told = frame.by_tag(bench.run("stl_bench", "mux", FORMULA, given=ordered.out).out)
            frame.same([lines[-1][:5] for lines in told.values()], ["line "] * len(told))
        frame.same(server.ask("XREADGROUP", "GROUP", "judges", "one", "COUNT", 100, "STREAMS", "all", "0"), [[b"all", []]])


@frame.needs("redis-server")
def test_scripts_that_are_refused(bench):
    """Another formula, another recording of the same tag, other words: a line, and no traceback."""
    with redis(bench) as host:
        server = server_at(host)
        server.ask("SET", "formula", "x >= 1")
        bench.tool("example/redis_judge", host, "0/1", "x >= 2").refused("redis_judge: these benches are judged by another formula")
        bench.tool("example/redis_bench", host, "a", given="time,x\n0,1\n").ended(0, "")
        bench.tool("example/redis_bench", host, "a", given="time,x\n0,1\n").ended(0, "")
        bench.tool("example/redis_bench", host, "a", given="time,x\n0,2\n").refused("redis_bench: OTHER line 2 was stored")
        frame.same(server.ask("XLEN", "rows:a"), 3)
    for words in ([], ["a"], [host, "a b"], ["here", "a"]):
        bench.tool("example/redis_bench", *words).refused("usage: redis_bench HOST:PORT TAG < RECORDING")
    for words in ([], [host, "1", "true"], [host, "1/1", "true"], ["here", "0/1", "true"]):
        bench.tool("example/redis_judge", *words).refused("usage: redis_judge HOST:PORT SHARD/SHARDS FORMULA")
    bench.tool("example/redis_judge", host, "0/1", "x >= 2").refused("redis_judge: [Errno 111] Connection refused")
