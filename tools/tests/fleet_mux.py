"""One stream dealt to several processes, and what goes wrong where mux stands alone."""
import frame
from serving import FORMULA, mixed, recordings, watched


def stream(seed, benches=8, rows=40):
    """Recordings, and their lines as mux takes them."""
    found = recordings(seed, benches, rows)
    return found, "".join(f"{tag} {line}\n" for tag, _, line in mixed(found, seed))


@frame.needs("parallel")
def test_lines_dealt_by_their_tag(bench):
    """Each of three processes has the whole recordings of some benches, and each bench is told what watch tells it."""
    found, text = stream(1)
    shards = ["parallel", "--will-cite", "--pipe", "--shard", "1", "--colsep", " ", "--jobs", "3", "--line-buffer", f"stl_bench mux '{FORMULA}'"]
    run = bench.run(*shards, given=text)
    frame.same(run.status, 0, run.err)
    frame.same(frame.by_tag(run.out), {tag: watched(bench, lines) for tag, lines in found.items()})


@frame.needs("parallel")
def test_lines_dealt_in_turn_tear_recordings_apart(bench):
    """What a shared subscription does, too: no bench is told what it would be told alone, and rows are taken for headers."""
    found, text = stream(2)
    dealt = ["parallel", "--will-cite", "--pipe", "--round-robin", "--max-lines", "1", "--block", "10", "--jobs", "3", "--line-buffer", f"stl_bench mux '{FORMULA}'"]
    told = frame.by_tag(bench.run(*dealt, given=text).out)
    for tag, lines in found.items():
        frame.holds(told.get(tag) != watched(bench, lines), f"{tag} was told right")
    frame.holds(any("line 1: field 1" in line for lines in told.values() for line in lines), f"no row was taken for a header: {told}")


def test_the_end_of_the_input_is_taken_for_the_end_of_all_recordings(bench):
    """A bench that was cut off is told its start as if it had ended; behind in_order it is told which line is missing."""
    formula = "always[0,100] x <= 5"
    cut = [("a", 1, "time,x"), ("a", 2, "0,1"), ("a", 3, "1,2")]
    alone = bench.run("stl_bench", "mux", formula, given="".join(f"{tag} {line}\n" for tag, _, line in cut))
    frame.same(frame.by_tag(alone.out)["a"][-1], "start true")
    whole = bench.run("stl_bench", "mux", formula, given="a time,x\na 0,1\na 1,2\na 2,9\na .\n")
    frame.same(frame.by_tag(whole.out)["a"][-1], "start false")
    ordered = bench.tool("in_order", given="".join(f"{tag} {number} {line}\n" for tag, number, line in cut))
    told = frame.by_tag(bench.run("stl_bench", "mux", formula, given=ordered.out).out)["a"]
    frame.same(told[-1], "line 4: 1 fields")
    frame.holds(not any(line.startswith("start") for line in told), told)


def test_one_mux_takes_1024_tags_in_its_life(bench):
    """Those that have ended count, and a tag that has ended begins no new recording."""
    text = "".join(f"b{k} time,x\nb{k} 0,7\nb{k} .\n" for k in range(1025))
    run = bench.run("stl_bench", "mux", "x >= 5", given=text)
    frame.same((run.status, run.err), (4, "line 3073: too many sessions\n"))
    frame.same(len([line for line in run.out.splitlines() if line.endswith(" start true")]), 1024)
    again = bench.run("stl_bench", "mux", "x >= 5", given="a time,x\na 0,7\na .\na time,x\na 0,1\na .\n")
    again.ended(0, "a [0,0] true\na start true\n")
