"""The module behind `rt`, for scripts that work on the crates as it does."""
import importlib.machinery
import importlib.util
import os
import shutil
import signal
import sys


def help_of(about):
    """Writes what a script does, and ends it, where its one word asks for that."""
    if sys.argv[1:] in (["--help"], ["-h"]):
        signal.signal(signal.SIGPIPE, signal.SIG_DFL)
        print(about.strip())
        sys.exit(0)


def command():
    """The module: it knows the crates, what their checks are called with, and how an edit is applied to a copy of one."""
    path = os.path.realpath(shutil.which("rt") or sys.exit("there is no rt on the path"))
    loader = importlib.machinery.SourceFileLoader("rt_command", path)
    module = importlib.util.module_from_spec(importlib.util.spec_from_loader("rt_command", loader))
    sys.dont_write_bytecode = True
    loader.exec_module(module)
    return module
