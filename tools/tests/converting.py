"""What the tests of the converters share: a conversion in this process, tables of refusals, and mutated inputs."""
import functools
import io
import re

import frame

load = functools.cache(frame.load)
ONE_LINE = re.compile(r"[^\x00-\x1f\x7f-\x9f\u2028\u2029\ud800-\udfff]{1,1000}")


def outcome(name, words, data):
    """What a converter writes for these words and this input, and None; or None, and what it says where it refuses."""
    return outcome_of(load(name), load(name).words_of(words), data)


def outcome_of(module, chosen, data):
    """The same of words that were read."""
    rows = module.trace_rows
    source = io.BytesIO(data if isinstance(data, bytes) else data.encode())
    try:
        if module.TOOL != "from_lines":
            return rows.refusing_input(module.convert, chosen, source).text(), None
        texts, bench = [], module.bench_of(chosen)
        rows.refusing_input(lambda _, given: module.follow(bench, given, texts.append), chosen, source)
        return "".join(texts), None
    except rows.Refused as why:
        return None, rows.one_line(str(why))


def refuses(name, table):
    """Fails where a converter does not refuse one of these words and inputs with its line."""
    for words, data, line in table:
        frame.same(outcome(name, words.split(), data), (None, line), f"{name} {words} of {data[:80]!r}")


def gives(name, words, data, lines):
    """Fails where a converter gives other lines."""
    frame.same(outcome(name, words.split(), data), ("\n".join(lines.split()) + "\n", None), f"{name} {words}")


def told_of_mutants(bench, name, words, texts, pieces, count=10_000, seed=47):
    """Fails where a mutated input gives neither a recording nor one line. Some of the recordings are read by the program, and some
    inputs are given to the script as a process."""
    taken, module, chosen = 0, load(name), load(name).words_of(words)
    for number, data in enumerate(frame.mutants([text.encode() for text in texts], pieces, count, seed)):
        try:
            text, line = outcome_of(module, chosen, data)
        except Exception as why:
            raise frame.Failed(f"{name} {words}: {type(why).__name__}: {why}\n  for {data!r}") from why
        frame.holds(line is None or ONE_LINE.fullmatch(line), f"{name}: {line!r} is no line, for {data!r}")
        taken += line is None
        if line is None and taken % 97 == 1:
            bench.run("stl_bench", "check", "true", given=text).ended(0, None)
        if number % 1000 == 0:
            run = bench.tool(name, *words, given=data)
            if line is None:
                frame.same((run.status, run.out), (0, text), f"{name} of {data!r}")
            else:
                frame.same((run.status, run.err), (1, f"{name}: {line}\n"), f"{name} of {data!r}")
    frame.holds(count // 200 < taken < count, f"{name}: {taken} of {count} mutated inputs give a recording")
