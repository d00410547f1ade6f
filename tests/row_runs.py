"""Runs of the program, and of shells, and what comes of them.

Below `$ WORD..` stand what it writes to standard output (`out`) and to standard error (`err`), and
its status. Lines of `by path`, as those of `=>` that tell of derivations, come before those of
`out`, in the order of the paths in them. With `tty` in place of `err` standard error is a terminal,
an xterm if `env` has no other: `~` begins what follows the sequence that clears a line, which is
cut at the last column. `out like`, `err like` and `tty like` are expressions for the whole. A word
for which nothing stands yet, alone in `out`, stands for what came. `in` is the standard input. A
line of `env` sets a variable, or names one that is not set. With `room N` standard output takes N
bytes and refuses the next, with `err room N` standard error does; with `too much` the run is made
with each room that is less than this text's. `limit N` is the greatest size of a file, and `ignore
N` an ignored signal.

`sh` has a shell take the text below, above the store folder; `nix_realise` is the program there, a
command that fails ends it, and `fails N WORD..` wants one to fail with this status. `start NAME
WORD..` lets a run go on, and `await NAME` waits for its end. `goes-on NAME` sees that it has not
ended, and `kill NAME H` kills it after H hundredths of the time that the run before took. `until
PATH` waits until something stands there. `quickest H` sees that a run on a terminal has ended
within H hundredths of a second. After `as-user` no run is the superuser's.
"""

import collections
import contextlib
import os
import pathlib
import pty
import re
import resource
import shutil
import signal
import subprocess
import tempfile
import time
import types

from row_calls import compare_calls, settings
from scenes import Fault, expect, told, until

# The seconds that a run may take, and those after which it counts as going on.
MOST_SECONDS, SOME_SECONDS = 120, 0.3
# The greatest size of a file, at the end of which a stream of a run has little room.
GREATEST_FILE = 2**30
FAILS = 'fails() { n=$1; shift; if "$@"; then return 99; else test $? = $n; fi; }'  # For `sh`.
NOBODY = 65534  # The user who is not the superuser.
# What clears a line of a terminal, and a line that is cut at the last column.
CLEAR, CUT = "\r\x1b[K", re.compile(r"\x1b\[\?7l(.*)\x1b\[\?7h")
ALONE = re.compile(r"(<[a-z0-9.-]+>)\n?")  # A text that is one word.
until_at = lambda path: until(f"something at {path}", lambda: os.path.lexists(path), MOST_SECONDS)
# What stands below a step of which nothing is said.
NOTHING = types.SimpleNamespace(texts={}, numbers={})
# How a run ended: what it wrote, its status, and the label of standard error.
Ran = collections.namedtuple("Ran", "out err status label")


class Stream:
    """Where a run writes to: a file, which has room for so many bytes if that is a number, or a
    terminal, which keeps what it is sent until that is read."""

    def __init__(self, scene, room, label):
        self.label = label
        self.begin = GREATEST_FILE - room if room is not None else 0
        if label == "tty":
            self.ours, self.file = pty.openpty()
        else:
            self.file = tempfile.TemporaryFile(dir=scene.folder)
            self.file.seek(self.begin)

    def text(self):
        """What was written."""
        if self.label == "tty":
            os.close(self.file)
            return marked(read_all(self.ours).decode(errors="backslashreplace"))
        self.file.seek(self.begin)
        return self.file.read().decode(errors="backslashreplace")


def read_all(terminal):
    """What a terminal was sent, up to the end, which is an error where nobody holds it."""
    sent = b""
    with contextlib.suppress(OSError):
        while piece := os.read(terminal, 4096):
            sent += piece
    os.close(terminal)
    return sent


def marked(sent):
    """What a terminal was sent, with marks in place of its sequences."""
    first, *lines = sent.replace("\r\n", "\n").split(CLEAR)
    lines = [CUT.sub(r"\1", line) + "\n" if CUT.fullmatch(line) else line for line in lines]
    return first + "".join(f"~ {line}" if line else "~\n" for line in lines)


class Run:
    """A run that was started as the parts of a step say."""

    def __init__(self, scene, words, step=NOTHING, room=None):
        self.begin, self.scene, numbers = time.monotonic(), scene, step.numbers
        self.out = Stream(scene, room, "out")
        is_shown = any(label.startswith("tty") for label in step.texts)
        self.err = Stream(scene, numbers.get("err room"), "tty" if is_shown else "err")
        narrow = GREATEST_FILE if self.out.begin or self.err.begin else None
        limits = numbers.get("limit", narrow), numbers.get("ignore")
        with tempfile.TemporaryFile(dir=scene.folder) as given:
            given.write(scene.said(step.texts.get("in", "")).encode())
            given.seek(0)
            how = {"stdin": given, "stdout": self.out.file, "stderr": self.err.file, **scene.user}
            how |= {"cwd": scene.folder, "env": environment(scene, step), "start_new_session": True}
            how |= {"executable": scene.program} if words[0] == "nix_realise" else {}
            self.process = subprocess.Popen(words, preexec_fn=lambda: set_up(*limits), **how)

    def ended(self):
        """How it ended. It is killed where it takes too long."""
        try:
            status = self.process.wait(MOST_SECONDS)
        except subprocess.TimeoutExpired:
            self.kill()
            status = f"none after {MOST_SECONDS} seconds"
        self.scene.seconds = time.monotonic() - self.begin
        if self.err.label == "tty":
            self.scene.quickest = min(self.scene.quickest, self.scene.seconds)
        return Ran(self.out.text(), self.err.text(), status, self.err.label)

    def kill(self):
        """Kills it and what it left, if nobody has waited for its end."""
        if self.process.returncode is None:
            os.killpg(self.process.pid, signal.SIGKILL)
            self.process.wait()


def environment(scene, step):
    """The variables of a run."""
    found = dict(settings(scene, step))
    found |= {"TERM": "xterm"} if any(label.startswith("tty") for label in step.texts) else {}
    for line in scene.said(step.texts.get("env", "")).splitlines():
        name, is_set, value = line.partition("=")
        found[name] = value if is_set else None
    return {name: value for name, value in found.items() if value is not None}


def set_up(limit, ignored):
    """Limits the size of files and ignores a signal, where these are given."""
    if limit is not None:
        signal.signal(signal.SIGXFSZ, signal.SIG_IGN)
        _, most = resource.getrlimit(resource.RLIMIT_FSIZE)
        resource.setrlimit(resource.RLIMIT_FSIZE, (limit, most))
    if ignored is not None:
        signal.signal(ignored, signal.SIG_IGN)


def wanted_of(scene, step, label, came):
    """What a stream has to get, where this came."""
    if f"{label} like" in step.texts:
        like = scene.text(step, f"{label} like")
        return came if re.fullmatch(like, came) else like
    lines = scene.text(step, "by path").splitlines(keepends=True) if label == "out" else []
    text = "".join(sorted(lines, key=lambda line: line.partition(" ")[2])) + scene.text(step, label)
    alone = ALONE.fullmatch(text)
    if alone and alone[1] not in scene.names:
        scene.names[alone[1]] = came.removesuffix("\n") if text.endswith("\n") else came
    return scene.said(text)


def compare(scene, step, ran, room=None):
    """Compares how a run ended with what stands below a step, but what fills a small room."""
    out = ran.out if room is not None else wanted_of(scene, step, "out", ran.out)
    err = wanted_of(scene, step, ran.label, ran.err)
    head = f"room {room}\n" if room is not None else ""
    wanted = told(out, err, step.numbers.get("status", 0), ran.label)
    expect(head + wanted, head + told(*ran))
    compare_calls(scene, step)


def take_run(scene, step):
    """Runs a command line, and compares what it writes and its status."""
    rooms = [step.numbers.get("room")]
    if "too much" in step.texts:
        rooms = range(len(scene.text(step, "too much").encode()))
    for room in rooms:
        compare(scene, step, Run(scene, scene.words(step.words), step, room).ended(), room)


def take_shell(scene, step):
    """Has a shell take a script, and compares what it writes and its status."""
    head = f'export LC_ALL=C; nix_realise() {{ "{scene.program}" "$@"; }}\n{FAILS}\n'
    words = ["/bin/sh", "-e", "-c", head + scene.text(step)]
    compare(scene, step, Run(scene, words, step).ended())


def take_start(scene, step):
    """Starts a run, and lets it go on."""
    name, *words = step.words
    scene.runs[name] = Run(scene, scene.words(words), step)


def take_goes_on(scene, step):
    """Fails where a run ends at once."""
    time.sleep(SOME_SECONDS)
    if scene.runs[step.words[0]].process.poll() is not None:
        raise Fault("a run that goes on", "one that has ended")


def take_kill(scene, step):
    """Kills a run, after a part of the time that the run before took."""
    process, hundredths = scene.runs[step.words[0]].process, int(scene.said(step.words[1]))
    time.sleep(scene.seconds * hundredths / 100)
    os.kill(process.pid, signal.SIGKILL)
    # Its number is kept, since what it left is killed by that at the end of the row.
    end = os.waitid(os.P_PID, process.pid, os.WEXITED | os.WNOWAIT)
    if end.si_status != signal.SIGKILL and not hundredths:
        raise Fault("a run that is killed", "one that has ended")


def take_quickest(scene, step):
    """Fails where no run on a terminal has ended within so many hundredths of a second."""
    if scene.quickest * 100 > int(step.words[0]):
        raise Fault(f"at most {step.words[0]} hundredths of a second", f"{scene.quickest} s")


def take_as_user(scene, _):
    """Lets a user who is not the superuser do the runs, in folders of their own."""
    if os.getuid() == 0:
        scene.program = shutil.copy(scene.program, scene.folder / "program")
        for path in (scene.folder, *pathlib.Path(scene.folder).rglob("*")):
            os.chown(path, NOBODY, NOBODY)
        scene.user = {"user": NOBODY, "group": NOBODY, "extra_groups": []}


RUNS = {
    "$": take_run,
    "sh": take_shell,
    "start": take_start,
    "await": lambda scene, step: compare(scene, step, scene.runs[step.words[0]].ended()),
    "goes-on": take_goes_on,
    "kill": take_kill,
    "until": lambda scene, step: until_at(scene.path(step.words[0])),
    "quickest": take_quickest,
    "as-user": take_as_user,
}
