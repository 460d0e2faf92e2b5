"""That the frame tells a test that fails from one that passes, and ends one that hangs."""
import pathlib
import shutil
import sys

import frame

FILE = '''
import time, frame
def test_good(bench): bench.run("stl_bench", "check", "x >= 0", given="time,x\\n0,1\\n").ended(0, "[0,0] true\\nstart true\\n")
def test_bad(bench): frame.same(1, 2, "one")
def test_error(bench): 1 / 0
@frame.at_most(0.5)
def test_hangs(bench): time.sleep(60)
@frame.needs("no_such_tool")
def test_needs(bench): pass
@frame.needs(modules=["no_such_module"])
def test_needs_module(bench): pass
def test_leaves_out(bench): raise frame.LeftOut("seen late")
'''


def test_counts(bench):
    for name in ("try_tools", "tests/frame.py"):
        bench.write(f"copy/tools/{name}", (frame.TOOLS / name).read_bytes())
    bench.write("copy/tools/tests/test_some.py", FILE)
    for name in ("recordings", "docs"):
        pathlib.Path("copy", name).mkdir()
    program = shutil.which("stl_bench")
    whole = bench.run(sys.executable, "copy/tools/try_tools", "--program", program)
    frame.same(whole.out.splitlines()[-1], "1 passed, 3 failed, 3 skipped", whole.out)
    frame.same(whole.status, 1)
    for line in ("some.needs: left out: there is no no_such_tool", "some.needs_module: left out: no Python has no_such_module",
                 "some.leaves_out: left out: seen late", "not ended after 0.5 s", "ZeroDivisionError: division by zero"):
        frame.holds(line in whole.out.splitlines(), f"{line} is not in {whole.out}")
    frame.same(bench.run(sys.executable, "copy/tools/try_tools", "--program", program, "some.good").status, 0)
    frame.same(bench.run(sys.executable, "copy/tools/try_tools", "--program", program, "nothing").status, 1, "where no test ran")
