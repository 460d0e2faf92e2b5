"""from_vcd. For all tests, Debian's packages: iverilog ghdl verilator."""
import io
import random
import time

import converting
import frame
from converting import gives, refuses, told_of_mutants

HEAD = ("$date today $end $version some 1 $end\n$comment of\nmany lines $end\n$timescale 10 ns $end\n$scope module tb $end\n$var wire 1 ! clk $end\n"
        "$var reg 8 \" level [7:0] $end\n$var real 64 # volts $end\n$var event 1 $ done $end\n$var wire 1 % bit [3] $end\n$var wire 1 & bit [2] $end\n"
        "$scope module dut $end\n$var wire 1 ! clk $end\n$var reg 4 ' level [3:0] $end\n$upscope $end $upscope $end\n$enddefinitions $end\n")
BODY = "#0\n$dumpvars\n0!\nb101 \"\nr1.5 #\nx%\nz&\nbx '\n$end\n#5\n1!\nb11111111 \"\n#5\nb11111110 \"\n#7 0! b1 \" $comment 1! $end\nr-2e-1\n#\n#20\n"
READY = "time:1,request:step,ready:step 0.0,0,0 22.3,1,0 27.5,1,1 52.3,0,1 52.5,0,0 100.0,0,0"
COUNTS = "time:1,count:step,level:step 2.5,0,-3 12.5,1,-2 17.5,2,-1 22.5,3,0"


def made(name):
    with open(f"recordings/made/{name}", encoding="utf-8") as file:
        return file.read()


def first_rows(words, data, count):
    """The header and the first rows, as one text."""
    return " ".join(converting.outcome("from_vcd", words.split(), data)[0].split()[: count + 1])


def test_takes(bench):
    every = "time clk=tb.clk level=tb.level volts:1"
    gives("from_vcd", "--unit ns " + every, HEAD + BODY, "time,clk:step,level:step,volts:step:1 0,0,5,1.5 50,1,254,1.5 70,0,1,-0.2 200,0,1,-0.2")
    gives("from_vcd", "--unit us --signed level time:2 level=tb.level[7:0]", HEAD + BODY, "time:2,level:step 0.00,5 0.05,-2 0.07,1 0.20,1")
    gives("from_vcd", "--unit ns --unknown -1 time v=bit[3] w=dut.level", HEAD + BODY, "time,v:step,w:step 0,-1,-1 200,-1,-1")
    gives("from_vcd", "--unit ns --from-known time v=bit[2] clk", HEAD + BODY + "1&\n#21\n", "time,v:step,clk:step 200,1,0 210,1,0")
    gives("from_vcd", "--unit ns --from-known --from-first time v=bit[2]", HEAD + BODY + "L&\n#21\nH&\n#22\n", "time,v:step 0,0 10,1 20,1")
    gives("from_vcd", "--unit ns time clk=tb.clk", HEAD.replace("\n", "\r\n") + BODY.replace("\n", "\r\n"), "time,clk:step 0,0 50,1 70,0 200,0")
    gives("from_vcd", "--unit ms --factor time=1000 time:2 clk=tb.dut.clk", HEAD + BODY, "time:2,clk:step 0.00,0 0.05,1 0.07,0 0.20,0")


def test_refuses(bench):
    paths = "tb.clk, tb.level[7:0], tb.volts, tb.done, tb.bit[3], tb.bit[2], tb.dut.clk, tb.dut.level[3:0]"
    whole = HEAD + BODY
    refuses("from_vcd", [
        ("time reset", whole, f"the VCD has 0 variables 'reset'; it has {paths}"),
        ("time level", whole, "the VCD has 2 variables 'level'; these are tb.level[7:0], tb.dut.level[3:0]"),
        ("time bit", whole, "the VCD has 2 variables 'bit'; these are tb.bit[3], tb.bit[2]"),
        ("time x", "$timescale 1 ns $end $enddefinitions $end\n#0\n", "the VCD has 0 variables 'x'; it has none"),
        ("time clk:ramp", whole, "column clk: a variable of a VCD keeps its value up to its next change, so it is a step"),
        ("time", whole, "no column after time"),
        ("--signed x time clk", whole, "--signed x: there is no such column"),
        ("--unknown x time clk", whole, "--unknown: N: 'x' is no number"),
        ("time done", whole, "done: a variable of the kind event has no value that lasts"),
        ("time text", HEAD.replace("$var event 1 $ done", "$var string 1 $ text") + BODY, "text: a variable of the kind string has no value that lasts"),
        ("--unit ns time v=dut.level", whole, "line 24: v is unknown at #0 (--unknown N writes N, --from-known begins later)"),
        ("--unit ns time clk=tb.clk", HEAD + "#0\n#3\n1!\n", "line 18: clk has no value at #0 (--unknown N writes N, --from-known begins later)"),
        ("--unit ns --from-known time clk=tb.clk", HEAD + "#0\n1!\n#3\nx!\n#4\n", "line 20: clk is unknown at #3 (--unknown N writes N, --from-known begins later)"),
        ("--unit ns --from-known time v=dut.level", whole, "no time at which every chosen variable is known"),
        ("--unit ns time v=tb.level", HEAD + "#0\nb101010101 \"\n", "line 18: v: 'b101010101' is no value of 8 bits"),
        ("--unit ns time v=tb.level", HEAD + "#0\nb12 \"\n", "line 18: v: 'b12' is no value of 8 bits"),
        ("--unit ns time v=volts", HEAD + "#0\nb1 #\n", "line 18: v: 'b1' is no value of 0 bits"),
        ("--unit ns time v=volts", HEAD + "#0\nrnan #\n", "line 18: v: 'nan' is no number"),
        ("--unit ns time v=volts", HEAD + "#0\nr0.25 #\n#1\n", "line 19: v: 0.25 has more than 0 decimals (--round rounds it)"),
        ("--unit ns time clk=tb.clk", HEAD + "#5\n1!\n#4\n", "line 19: time #4 is not after #5"),
        ("--unit us time:1 clk=tb.clk", whole, "line 31: time: 0.050 has more than 1 decimals (--round rounds it)"),
        ("--unit ns time clk=tb.clk", HEAD + f"#0\n1!\n#{'9' * 31}\n", f"line 19: '#{'9' * 31}' is no time"),
        ("--unit ns time clk=tb.clk", HEAD + "#0\n1!\n#429496729600\n", "line 19: time 4294967296000 is out of range, which is 0 to 4294967295 (--from-first counts from the first row)"),
        ("--unit ns time clk=tb.clk", HEAD + "#\n", "line 17: '#' is no time"),
        ("--unit ns time clk=tb.clk", HEAD + "#0\n1?\n", "line 18: '?' is the code of no variable"),
        ("--unit ns time clk=tb.clk", HEAD + "#0\n1!\n#3\nb1", "line 20: the VCD ends within a change"),
        ("--unit ns time clk=tb.clk", HEAD + "#0\n1!\n#3\n$comment", "line 20: the VCD ends within a comment"),
        ("--unit ns time clk=tb.clk", HEAD + "#0\n1!\npD 6 6 <0\n", "line 19: 'pD' is no change of a value"),
        ("--unit ns time clk=tb.clk", HEAD, "no time after $enddefinitions"),
        ("--unit ns time clk=tb.clk", HEAD[:-20], "no $enddefinitions"),
        ("time clk", "", "no $enddefinitions"),
        ("time clk", "time,clk\n0,1\n", "line 1: 'time,clk' before $enddefinitions"),
        ("time clk", "$enddefinitions $end\n#0\n", "line 1: no timescale"),
        ("time clk", "$timescale 3 ns $end\n", "line 1: timescale '3 ns'"),
        ("time clk", "$var wire 1 $end\n", "line 1: $var wire 1"),
        ("time clk", "$upscope $end\n", "line 1: $upscope"),
    ])


def test_made_by_each_simulator(bench):
    """What Icarus Verilog, Verilator and GHDL wrote: one design in Verilog gives the same rows by two of them."""
    ready = "--unit ns time:1 request=tb.request ready=tb.ready"
    gives("from_vcd", ready, made("counter.vcd"), READY)
    gives("from_vcd", ready, made("counter_verilator.vcd"), READY)
    gives("from_vcd", "--unit ns time:1 request ready", made("handshake.vcd"), READY)
    counts = "--unit ns --from-known --signed level time:1 count=tb.count level=tb.level"
    frame.same(first_rows(counts, made("counter.vcd"), 4), COUNTS)
    frame.same(first_rows(counts, made("counter_verilator.vcd"), 5), COUNTS.replace("2.5,0,-3", "0.0,0,0 2.5,0,-3"))
    gives("from_vcd", "--unit ns --unknown -1 time:1 bus=tb.bus", made("counter.vcd"), "time:1,bus:step 0.0,-1 22.3,1 52.3,-1 100.0,-1")
    gives("from_vcd", "--unit ns --unknown -1 time:1 bus=bus_line", made("handshake.vcd"), "time:1,bus:step 0.0,1 30.0,0 60.0,-1 100.0,-1")
    refuses("from_vcd", [("--unit ns time:1 count", made("handshake.vcd"), "line 31: count is unknown at #0 (--unknown N writes N, --from-known begins later)")])


def without_heads(text):
    """A VCD without what names its day and its program."""
    return text[text.index("$timescale"):]


@frame.needs("iverilog", "vvp")
def test_icarus(bench):
    bench.run("iverilog", "-g2012", "-o", "counter.vvp", "recordings/made/counter.v", seconds=300).ended(0)
    bench.run("vvp", "-n", "counter.vvp", seconds=300).ended(0, None)
    frame.same(without_heads(open("counter.vcd").read()), without_heads(made("counter.vcd")))


@frame.needs("ghdl")
def test_ghdl(bench):
    for words in (["-a", "recordings/made/handshake.vhd"], ["-e", "bench"], ["-r", "bench", "--vcd=handshake.vcd", "--stop-time=100ns"]):
        frame.same(bench.run("ghdl", *words, seconds=300).status, 0, words)
    frame.same(without_heads(open("handshake.vcd").read()), without_heads(made("handshake.vcd")))


@frame.needs("verilator", "g++", "make")
@frame.slow
@frame.at_most(1200)
def test_verilator(bench):
    done = bench.run("verilator", "--binary", "--timing", "--trace", "-Wno-fatal", "--top-module", "tb", frame.ROOT / "recordings/made/counter.v", seconds=1100)
    frame.same(done.status, 0, done.err)
    frame.same(bench.run("obj_dir/Vtb").status, 0)
    frame.same(without_heads(open("counter.vcd").read()), without_heads(made("counter_verilator.vcd")))


@frame.at_most(600)
def test_mutants(bench):
    pieces = [b"\n", b" ", b"$end", b"$var wire 1 ! x $end", b"$scope", b"$timescale 1 s $end", b"#", b"#9", b"#\xc2\xb2", b"#" + b"9" * 5000, b"b", b"bz", b"r", b"r9e999",
              b"rnan", b"x", b"!", b"$comment", b"$dumpoff", b"s", b"\xff", b"\x00", b"1" * 50]
    words = ["--unit", "ns", "--round", "--signed", "level", "time:1", "clk=tb.clk", "level=tb.level", "volts:1"]
    told_of_mutants(bench, "from_vcd", words, [HEAD + BODY], pieces)
    told_of_mutants(bench, "from_vcd", [*words, "--unknown", "7"], [HEAD + BODY], pieces, 1_000)


def many_changes(count):
    """A VCD of so many changes, a time with each or two, of four variables."""
    dice, lines = random.Random(47), ["$timescale 1 ns $end", "$scope module t $end"]
    widths = {"!": 1, '"': 1, "#": 8, "$": 16}
    lines += [f"$var reg {width} {code} v{at} $end" for at, (code, width) in enumerate(widths.items())]
    lines += ["$upscope $end", "$enddefinitions $end", "#0", "0!", '0"', "b0 #", "b0 $"]
    made_so_far, now = 4, 0
    while made_so_far < count:
        now += 5
        lines.append(f"#{now}")
        for code in dice.sample(list(widths), dice.choice([1, 1, 2])):
            bits = f"{dice.randrange(1 << widths[code]):b}"
            lines.append(bits + code if widths[code] == 1 else f"b{bits} {code}")
            made_so_far += 1
    return "\n".join(lines) + "\n"


def three_million_sums():
    total = 0
    for number in range(3_000_000):
        total += number


def seconds_of(call):
    """The time that a call takes of a processor."""
    begun = time.process_time()
    call()
    return time.process_time() - begun


@frame.slow
@frame.at_most(1200)
def test_half_a_million_changes(bench):
    """At most 5 s. On a busy machine, where a loop of three million sums takes more than a fifth of a second, at most 25 such loops."""
    data = many_changes(500_000).encode()
    module = converting.load("from_vcd")
    before = seconds_of(three_million_sums)
    made_rows = []
    taken = seconds_of(lambda: made_rows.append(module.convert(module.words_of("--unit us time:3 v0 v1 v2 v3".split()), io.BytesIO(data))))
    most = max(5, 25 * (before + seconds_of(three_million_sums)) / 2)
    rows, text = made_rows[0], made_rows[0].text()
    frame.holds(taken <= most, f"{taken:.1f} s, and {most:.1f} s at most")
    frame.holds(rows.count > 250_000 and text.count("\n") == rows.count + 1, rows.count)
