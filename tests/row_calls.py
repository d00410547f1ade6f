"""Runs of a row with the library of `refused_calls.c`, which lets something happen between two
calls of the system, and keeps a log of them.

A line of `before` is `N KIND PATH: COMMAND`: right before the Nth call of a kind at a path the
shell runs the command. Where that fails the call is refused with its status as the error;
`refuse EIO` stands for such an end. With `most N` each read and each write takes N bytes at most.

`calls` are all calls of the run. A line has the kinds of those that follow one another at one path,
and the path, which is `-` where there is none; `; ` may stand between lines. `first calls` and
`last calls` are the lines with which they begin and end. `calls by path` are those at some paths,
with a line for all at one path.
"""

import errno
import itertools
import os
import re
import shutil
import subprocess

from scenes import HERE, expect

# The labels of texts that are parts of the calls, with those parts of as many calls.
PARTS = {
    "calls": lambda calls, _: calls,
    "first calls": lambda calls, count: calls[:count],
    "last calls": lambda calls, count: calls[-count:],
}
LABELS, NUMBERS = {"before", "calls by path", *PARTS}, {"most"}
REFUSE = re.compile(r"\brefuse (E[A-Z]+)\b")
# Whether a step is a run with the library.
needs_library = lambda step: bool(LABELS & set(step.texts) or NUMBERS & set(step.numbers))
# The lines of a text, which are divided by semicolons too.
lines_of = lambda text: text.replace("; ", "\n").splitlines()


def compiled(folder, source=HERE / "refused_calls.c"):
    """The library of a source, or none where there is no compiler."""
    compiler = next(filter(shutil.which, ["cc", "clang", "gcc"]), None)
    if compiler is None:
        return None
    library = os.path.join(folder, "library.so")
    words = [compiler, "-O1", "-shared", "-fPIC", "-o", library, source, "-ldl"]
    subprocess.run(words, check=True)
    return library


def settings(scene, step):
    """The environment of a run; that of this process if it has no library."""
    if not needs_library(step):
        return os.environ
    log = scene.folder / "calls"
    log.unlink(missing_ok=True)
    number_of = lambda found: f"exit {getattr(errno, found[1])}"
    more = {"LD_PRELOAD": scene.library, "CALLS_LOG": str(log)}
    more["BEFORE"] = REFUSE.sub(number_of, scene.text(step, "before"))
    if "most" in step.numbers:
        more["MOST"] = str(step.numbers["most"])
    return {**os.environ, **more}


def grouped(calls):
    """Lines of the kinds of calls at one path, and that path."""
    groups = itertools.groupby(calls, key=lambda call: call[1])
    return [" ".join([*(kind for kind, _ in group), path]) for path, group in groups]


def compare_calls(scene, step):
    """Compares the calls that a run made."""
    if not needs_library(step):
        return
    text = (scene.folder / "calls").read_text(errors="surrogateescape")
    lines = [line.split(" ", 3) for line in text.splitlines()]
    happened = [line for line in lines if line[0] == "before"]
    expect(str(scene.text(step, "before").count("\n")), str(len(happened)))
    # What is printed and told goes to files of the script, or to its terminal.
    calls = [
        (kind, "-" if kind in ("print", "tell") else path or "-")
        for done, kind, _, path in lines
        if done != "before"
    ]
    for label in PARTS.keys() & step.texts.keys():
        wanted = lines_of(scene.text(step, label))
        expect("\n".join(wanted), "\n".join(PARTS[label](grouped(calls), len(wanted))))
    wanted = sorted(lines_of(scene.text(step, "calls by path")))
    by_path = grouped(sorted(calls, key=lambda call: call[1]))
    paths = {line.rpartition(" ")[2] for line in wanted}
    found = sorted(line for line in by_path if line.rpartition(" ")[2] in paths)
    expect("\n".join(wanted), "\n".join(found))
