"""Finds the programs, runs them, and reads what was measured. `tests/` uses it too."""

import collections
import importlib.machinery
import importlib.util
import os
import re
import subprocess
import sys
import tempfile
import time

TOP = os.path.dirname(os.path.dirname(os.path.abspath(__file__)))
PROGRAM = os.path.join(TOP, "crates", "nix_realise", "out", "nix_realise")
# A call that was measured: its name, the nanoseconds that it took, and the lines that tell its
# answer. The calls of a line that tells none of them are one without a name.
Call = collections.namedtuple("Call", "name nanos told")
BEGINS, ENDS, TOOK = (
    re.compile(text) for text in (r"begins \d+ .*", r"ends \d+ (.*)", r"took (\d+) ns")
)


def module_at(name):
    """A script of this repository as a module. Nothing is kept of it beside the script."""
    sys.dont_write_bytecode = True
    loader = importlib.machinery.SourceFileLoader("script", os.path.join(TOP, name))
    module = importlib.util.module_from_spec(importlib.util.spec_from_loader("script", loader))
    loader.exec_module(module)
    return module


def built(path, how):
    """The whole path of a program that is built by hand. Ends where it is not there."""
    program = os.path.realpath(path)
    if not os.access(program, os.X_OK):
        sys.exit(f"{program} is not there: build it by ({how})")
    return program


def lab_program():
    """The path of `lab`, whose lines call the libraries: the value of LAB, or what is built by
    hand, as the program of a run is."""
    place = os.environ.get("LAB") or os.path.join(TOP, "crates", "lab", "out", "lab")
    return built(place, "cd crates/lab && rt run")


def own_seconds(pid):
    """The processor time of a process, also of one that has ended and was not waited for, without
    that of its children."""
    with open(f"/proc/{pid}/stat", encoding="ascii", errors="replace") as file:
        fields = file.read().rpartition(")")[2].split()
    return (int(fields[11]) + int(fields[12])) / os.sysconf("SC_CLK_TCK")


def measured(command, script="", **options):
    """What a command prints of lines that it reads, the seconds that it took, and the most memory
    that it held, in bytes."""
    with tempfile.TemporaryFile("w+", encoding="ascii") as lines:
        lines.write(script)
        lines.seek(0)
        begin = time.perf_counter()
        with subprocess.Popen(
            command, stdin=lines, stdout=subprocess.PIPE, text=True, **options
        ) as run:
            printed = run.stdout.read()
            _, status, usage = os.wait4(run.pid, 0)
            run.returncode = os.waitstatus_to_exitcode(status)
    passed = time.perf_counter() - begin
    if run.returncode != 0:
        sys.exit(f"{command[0]} ended with status {run.returncode}\n{printed[-2000:]}")
    return printed, passed, usage.ru_maxrss * 1024


def calls_of(*script, program=None):
    """The calls that `lab`, or another one, makes by these lines, and the most memory that it held.
    What is told before the first call is left out."""
    lines = "".join(f"{line}\n" for line in script)
    printed, _, memory = measured([program or lab_program(), "--times"], lines)
    calls, name = [], ""
    for line in printed.splitlines():
        if match := ENDS.fullmatch(line):
            name = match[1]
        elif match := TOOK.fullmatch(line):
            calls.append(Call(name, int(match[1]), []))
            name = ""
        elif calls and not BEGINS.fullmatch(line):
            calls[-1].told.append(line)
    return calls, memory


def last_of(calls, name):
    """The last call with this name."""
    return [call for call in calls if call.name == name][-1]


def micros_of(calls, *names):
    """The microseconds that the calls with these names took together."""
    return sum(call.nanos for call in calls if call.name in names) // 1000
