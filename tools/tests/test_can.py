"""from_can. For all tests, Debian's packages: python3-can can-utils."""
import random

import converting
import frame
from converting import refuses, told_of_mutants

DBC = "recordings/made/car.dbc"
WORDS = "--from-first time:2 speed:2=Motion.Speed brake=Motion.Brake oil:1=Gearbox.Temperature"
ROWS = ["time:2,speed:step:2,brake:step,oil:step:1", "0.00,30.00,0,80.0", "0.50,30.00,0,80.5", "0.97,30.00,1,80.5", "1.00,30.00,1,81.0", "1.07,27.50,1,81.0"]
LOG = ("(10.000000) can0 100#B80B000000000000 R\n(10.030000) can0 18FEF1FE#54B0000000000000\n\n(10.500000) can0 123#R R\n"
       "(11.000000) can0 100#C409C41F00000000 T\n(11.000000) can0 100#E803C41F00000000\n(12.5) can0 124##0000000000000000000000000\n")


def made(name):
    with open(f"recordings/made/{name}", encoding="utf-8") as file:
        return file.read()


def test_takes(bench):
    text, _ = converting.outcome("from_can", ["--dbc", DBC, *WORDS.split()], made("drive.log"))
    frame.same(text.split()[:6], ROWS)
    frame.same(text.split()[-1].split(",")[0], "2.87", "the time of the last frame")
    run = bench.tool("from_can", "--dbc", DBC, *WORDS.split(), given=made("drive.log"))
    run.ended(0, text, "from_can: passed over 2 remote or error frames\n")
    text, _ = converting.outcome("from_can", f"--dbc {DBC} time:2 speed=Motion.Speed a:2=Motion.Acceleration".split(), LOG)
    frame.same(text.split(), ["time:2,speed:step,a:step:2", "10.00,30,-1.50", "11.00,10,-4.50", "12.50,10,-4.50"])
    two = LOG.replace("\n", "\n(10.2) can1 100#0000000000000000\n", 1)
    text, _ = converting.outcome("from_can", f"--dbc {DBC} --bus can1 time:1 speed=Motion.Speed".split(), two)
    frame.same(text.split(), ["time:1,speed:step", "10.2,0"])


def test_refuses(bench):
    bench.write("twice.dbc", "BO_ 1 A: 8 X\n SG_ S : 0|8@1+ (1,0) [0|1] \"\" X\nBO_ 2 A: 8 X\n SG_ S : 0|8@1+ (1,0) [0|1] \"\" X\n SG_ T m0M : 0|8@1+ (1,0) [0|1] \"\" X\n")
    bench.write("wrong.dbc", "BO_ 1 A: 8 X\n SG_ S : 0|8 (1,0)\n")
    bench.write("wide.dbc", "BO_ 1 A: 8 X\n SG_ S : 0|65@1+ (1,0) [0|1] \"\" X\n")
    bench.write("factor.dbc", "BO_ 1 A: 8 X\n SG_ S : 0|8@1+ (one,0) [0|1] \"\" X\n")
    speed = f"--dbc {DBC} --from-first time:2 speed:2=Motion.Speed"
    refuses("from_can", [
        (f"--dbc {DBC} time:2 x=Muxed.First", LOG, "Muxed.First is multiplexed by Which, and such signals are not read"),
        ("--dbc twice.dbc time:2 x=A.T", LOG, "A.T is multiplexed by T, and such signals are not read"),
        (f"--dbc {DBC} time:2 x=Floats.Real", LOG, "Floats.Real is a binary fraction (SIG_VALTYPE_), and such signals are not read"),
        (f"--dbc {DBC} time:2 x=Motion.Sped", LOG,
         "the DBC has no signal 'Motion.Sped'; it has Motion.Speed, Motion.Acceleration, Motion.Brake, Gearbox.Gear, Gearbox.Temperature, Muxed.Which, Muxed.First, Floats.Real"),
        (f"--dbc {DBC} time:2 Speed", LOG, "the DBC has no signal 'Speed'; it has Motion.Speed"),
        ("--dbc twice.dbc time:2 x=A.S", LOG, "the DBC has 2 signals 'A.S'; it has A.S, A.S"),
        ("--dbc /dev/null time:2 x=A.S", LOG, "the DBC has no signal 'A.S'; it has none"),
        ("--dbc no.dbc time:2 x=A.S", LOG, "no.dbc: No such file or directory"),
        ("--dbc . time:2 x=A.S", LOG, ".: Is a directory"),
        ("--dbc wrong.dbc time:2 x=A.S", LOG, "wrong.dbc:2: not a signal as this script reads it: SG_ S : 0|8 (1,0)"),
        ("--dbc wide.dbc time:2 x=A.S", LOG, "wide.dbc:2: not a signal as this script reads it: SG_ S : 0|65@1+ (1,0) [0|1] \"\" X"),
        ("--dbc factor.dbc time:2 x=A.S", LOG, "factor.dbc:2: S: 'one' is no number"),
        (f"--dbc {DBC} time:2 x:ramp=Motion.Speed", LOG, "column x: a signal keeps its value up to its next frame, so it is a step"),
        (f"--dbc {DBC} time:2", LOG, "no column after time"),
        (f"--dbc {DBC} time:2 speed:2=Motion.Speed", made("drive.log"), "line 1: time 1772445600.00 is out of range, which is 0 to 42949672.95 (--from-first counts from the first row)"),
        (speed, LOG + "(13.0) can0 100#B8\n", "line 8: Speed needs 16 bits, and the frame has 8"),
        (f"--dbc {DBC} time:2 g=Gearbox.Temperature", "(1.0) can0 18FEF1FE#54\n", "line 1: Temperature needs 16 bits, and the frame has 8"),
        (speed, LOG + "(13.0) can1 100#B80B\n", "line 8: interface can1 after can0 (--bus NAME takes one)"),
        (speed, LOG + "(12.0) can0 100#B80B\n", "line 8: time 12.0 is before 12.5"),
        (speed, LOG + "  can0  100   [2]  B8 0B\n", "line 8: no frame of candump -l: can0  100   [2]  B8 0B"),
        (speed, LOG + "(13.0) can0 100#B80\n", "line 8: no frame of candump -l: (13.0) can0 100#B80"),
        (speed, "", "no frames"),
        (speed + " --bus can7", LOG, "no frames of can7"),
        (speed + " w=Muxed.Which", LOG, "no frame told Muxed.Which"),
        (f"--dbc {DBC} time:2 speed=Motion.Speed", "(1.0) can0 100#0100\n", "line 1: speed: 0.01 has more than 0 decimals (--round rounds it)"),
    ])


def by_bits(data, start, width, little, signed):
    """A signal's raw number, bit by bit: by bytes that rise from its least bit, or from its greatest bit on in the order of writing."""
    bits = [data[at // 8] >> at % 8 & 1 for at in range(8 * len(data))]
    if little:
        places = list(range(start, start + width))
    else:
        places, at = [], start
        for _ in range(width):
            places.insert(0, at)
            at = at - 1 if at % 8 else at + 15
    number = sum(bits[at] << k for k, at in enumerate(places))
    return number - (1 << width) if signed and bits[places[-1]] else number


def test_signals_bit_by_bit(bench):
    """Random signals of both byte orders in random frames, against a count of bits."""
    dice, module = random.Random(47), converting.load("from_can")
    for _ in range(5_000):
        length, little, signed = dice.randint(1, 8), dice.random() < 0.5, dice.random() < 0.5
        data = dice.randbytes(length)
        start = dice.randrange(8 * length)
        room = 8 * length - start if little else 8 * length - (8 * (start // 8) + 7 - start % 8)
        width = dice.randint(1, room)
        line = f" SG_ S : {start}|{width}@{int(little)}{'-' if signed else '+'} (0.5,-3) [0|1] \"\" X"
        signal = module.Signal("here", "M", 1, module.SIGNAL.match(line))
        frame.same(signal.value("here", data), by_bits(data, start, width, little, signed) * module.Decimal("0.5") - 3, f"{line} of {data.hex()}")


@frame.at_most(600)
def test_mutants(bench):
    pieces = [b"\n", b"#", b"##1", b"R", b"(", b")", b" ", b".", b"can1", b"100#", b"9" * 5000, b"\xff", b"\x00", b"\xd9\xa3", b"0", b"_9", b"20000080#00"]
    words = ["--dbc", DBC, "--round", "--from-first", "time:2", "speed:2=Motion.Speed", "gear=Gearbox.Gear"]
    told_of_mutants(bench, "from_can", words, [LOG], pieces)


@frame.at_most(600)
def test_mutated_dbc(bench):
    """A DBC that is mutated gives a recording or one line."""
    pieces = [b"BO_ 1 A: 8 X\n", b" SG_ ", b"|", b"@1+", b"9" * 5000, b"\xff", b"\x00", b"m0 ", b"M ", b"(", b"1e999", b"\xd9\xa3", b"SIG_VALTYPE_ 256 Speed : 1;\n", b"\n"]
    module = converting.load("from_can")
    chosen = module.words_of("--dbc mutated.dbc --round --from-first time:2 speed:2=Motion.Speed".split())
    for data in frame.mutants([made("car.dbc").encode()], pieces, 2_000, 49):
        bench.write("mutated.dbc", data)
        try:
            _, line = converting.outcome_of(module, chosen, LOG)
        except Exception as why:
            raise frame.Failed(f"{type(why).__name__}: {why}\n  for {data!r}") from why
        frame.holds(line is None or converting.ONE_LINE.fullmatch(line), f"{line!r} is no line, for {data!r}")


@frame.needs(modules=["can"])
def test_python_can(bench):
    """The log in recordings/made is what python3-can writes."""
    bench.run(frame.python_with("can"), "recordings/made/drive.py", seconds=300)
    frame.same(open("drive.log").read(), made("drive.log"))


@frame.needs("log2asc", "asc2log")
def test_can_utils(bench):
    """The same rows come of what can-utils make of the log, with other times for the day."""
    asc = bench.run("log2asc", "-I", "recordings/made/drive.log", "can0")
    log = bench.run("asc2log", given=asc.out)
    frame.holds(log.out.count("\n") > 30, log.err)
    run = bench.tool("from_can", "--dbc", DBC, *WORDS.split(), given=log.out)
    frame.same(run.out.split()[:6], ROWS, run.err)
