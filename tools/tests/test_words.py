"""That each script says what it does, and what those that work on the crates say of words that they do not take; no prover is needed."""
import sys

import frame

EDITS = "usage: tools/edits CRATE[:WORD].., or tools/edits --by-function [--as-proved] [CRATE[:WORD]..]"
PROFILE = "usage: tools/profile CRATE [N]"
SEED = "usage: tools/seed GATE, at the top of a checkout, where GATE is the top of one in which .ci/run ended"
UNPROVED = "usage: bench/unproved.py OUT, where OUT is the program to write"


def test_each_script_says_what_it_does(bench):
    """Also into a pipe that nobody reads to its end, and a word that it does not take is no traceback."""
    scripts = [path for folder in ("tools", "bench") for path in sorted((frame.ROOT / folder).glob("*")) if path.is_file() and path.read_bytes()[:2] == b"#!"]
    frame.holds(len(scripts) > 25, f"{len(scripts)} scripts")
    for path in scripts:
        for word in ("--help", "-h"):
            run = bench.run(path, word)
            frame.holds(run.status == 0 and len(run.out.splitlines()) > 2 and not run.err, f"{path.name} {word}: {run.status}\n{run.out}{run.err}")
        if path.name == "check_formula":  # what begins with - may be a formula
            continue
        run = bench.run(path, "--no-such-word")
        frame.holds(run.status in (1, 2) and not run.out and "Traceback" not in run.err, f"{path.name} --no-such-word: {run.status}\n{run.out}{run.err}")


def test_words_that_are_not_taken(bench):
    bench.tool("edits").refused(EDITS)
    bench.tool("edits", "--all").refused(EDITS)
    bench.tool("edits", "no_crate", "signal_ops:greatest").refused(f"{EDITS}; no crate with edits: no_crate")
    for words in ([], ["no_crate"], ["signal_ops", "many"], ["signal_ops", "3", "4"], [".."]):
        bench.tool("profile", *words).refused(PROFILE)
    for words in ([], ["no_folder"], ["a", "b"]):
        bench.tool("seed", *words).refused(SEED)
    for words in ([], ["--fast"], ["a", "b"]):
        bench.run(sys.executable, frame.ROOT / "bench" / "unproved.py", *words).refused(UNPROVED)
