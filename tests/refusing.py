"""Runs a program under the library of `refused_calls.c`, which refuses calls and growths."""

import collections
import concurrent.futures
import functools
import os
import re
import subprocess
import sys

from row_calls import compiled
from row_runs import Stream
from scenes import HERE, contents, run

# How a run ended: its status, and what it printed and said.
Ran = collections.namedtuple("Ran", "status out err")
LANES = len(os.sched_getaffinity(0))  # How many processes there are.
LONGEST = 600  # More seconds than a run takes, with all its children.


def in_lanes(act, some):
    """What an act gives for each of some, several at a time, each in a process of its own."""
    with concurrent.futures.ProcessPoolExecutor(LANES) as lanes:
        return list(lanes.map(act, some))


class Wrong(Exception):
    """What is not as it should be."""


class Refusing:
    """The library, in a folder."""

    def __init__(self, folder):
        self.library = compiled(folder)
        if self.library is None:
            sys.exit("there is no C compiler")

    @functools.cache
    def own(self, program):
        """Where the functions lie by which a program asks for memory: begin and end of each."""
        symbols = run(["nm", "--print-size", program])[1]
        found = re.findall(r"(?m)^(\w+) (\w+) [tT] rattle_(?:re)?alloc$", symbols)
        if len(found) != 2:
            raise Wrong(f"{program} has not the functions rattle_alloc and rattle_realloc")
        return " ".join(f"{at} {int(at, 16) + int(size, 16):x}" for at, size in found)

    def settings(self, program, **settings):
        chosen = {name: str(value) for name, value in settings.items()}
        return os.environ | chosen | {"OWN": self.own(program), "LD_PRELOAD": self.library}

    def run(self, program, script="", **settings):
        """Runs a program over lines of its standard input, in the folder of the tests."""
        how = {"env": self.settings(program, **settings), "cwd": HERE, "timeout": LONGEST}
        try:
            return Ran(*run([program], input=script.encode(), **how))
        except subprocess.TimeoutExpired:
            raise Wrong(f"{program}: no end after {LONGEST} seconds: {settings}") from None


class Sweep:
    """The runs over one scene, and what was wrong in them."""

    once = lambda self, env=None: run(self.scene.words(), env=env, input=self.scene.stdin)

    def __init__(self, refusing, scene, folder):
        self.refusing, self.scene = refusing, scene
        self.log = folder / f"log of {scene.name}"
        self.runs, self.wrong = 0, []

    def ran(self, env):
        """Lays the scene, and runs it; gives what was told and the lines of the log."""
        self.scene.lay()
        self.log.unlink(missing_ok=True)
        self.runs += 1
        told = self.shown(env) if self.scene.is_shown else self.once(env)
        lines = self.log.read_text(errors="surrogateescape") if self.log.exists() else ""
        return told, lines.splitlines()

    def shown(self, env):
        terminal = Stream(None, None, "tty")
        how = {"env": env, "stderr": terminal.file, "timeout": LONGEST}
        ran = subprocess.run(self.scene.words(), stdout=subprocess.PIPE, **how)
        return ran.returncode, ran.stdout.decode(), terminal.text()

    def blame(self, what, *how):
        self.wrong.append(f"{self.scene.name} {what}: " + " ".join(map(str, how)))

    def learn(self, env):
        """The undisturbed run: what it tells, what it leaves, and what it logs."""
        scene = self.scene
        scene.ample, lines = self.ran(env)
        scene.last = contents(scene.found())
        wanted = scene.good() if scene.has_calls else None
        if wanted not in (None, scene.ample):
            self.blame("undisturbed", "told", scene.ample, "and not", wanted)
        return lines

    def look(self, what, stands):
        """Looks at what stands after a run, and at what comes of the same command then."""
        scene = self.scene
        if stray := scene.strays(scene.found(), stands):
            self.blame(what, "there is", stray)
        scene.begin_again()
        status, out, err = self.once()
        if status != scene.ample[0] or not scene.is_again(out):
            self.blame(what, "the next run ended with", status, out, err)
        if stray := scene.strays(scene.found(), scene.last):
            self.blame(what, "after the next run there is", stray)
