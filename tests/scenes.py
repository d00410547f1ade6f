"""What the scripts that run the program share: derivations, runs, and what stands in a folder."""

import contextlib
import errno
import os
import pathlib
import shutil
import stat
import subprocess
import sys
import tempfile
import time

HERE = pathlib.Path(__file__).resolve().parent
sys.path.insert(0, str(HERE.parent / "bench"))
from program import PROGRAM, built, lab_program, module_at  # noqa: E402,F401
from store_paths import text_path  # noqa: E402,F401

PATH = ("PATH", "/usr/sbin:/usr/bin:/sbin:/bin")
MEMORY = "/dev/shm"
LOCK = ".nix_realise-lock"  # The file of a store folder that is locked.
# What a call says of a name that went away, or was another kind of file when it was looked at.
CHANGED_MEANWHILE = "ENOENT ENOTDIR ENAMETOOLONG EINVAL ELOOP EISDIR".split()
number_of = lambda words, name, default: int(option(words, name) or default)
# Kinds, permissions and what is held, without numbers and times.
contents = lambda found: {name: entry[:2] for name, entry in found.items()}


class Fault(Exception):
    """What a step wanted, and what it got."""

    def __init__(self, wanted, got):
        super().__init__(f"wanted\n{indented(wanted)}\ngot\n{indented(got)}")


def indented(text):
    """A text that stands out, and whose end can be seen."""
    lines = text.split("\n")
    last = lines.pop()
    marked = [f"    | {line}" for line in lines] + ([f"    + {last}"] if last else [])
    return "\n".join(marked) or "    nothing"


def expect(wanted, got):
    """Fails where two texts differ."""
    if wanted != got:
        raise Fault(wanted, got)


def told(out, err, status, stream="err"):
    """What a run writes and its status, in one text. Standard error is named by its label."""
    lines = [f"out| {line}" for line in whole(out)] + [f"{stream}| {line}" for line in whole(err)]
    return "\n".join([*lines, f"status {status}", ""])


def whole(text):
    """The lines of a text, of which the last may have no end."""
    lines = text.split("\n")
    last = lines.pop()
    return lines + ([last + " (without an end of line)"] if last else [])


def program_of(words):
    """The program's path: the first word that is no option, else the one that was built here."""
    given = [word for word in words if not word.startswith("--")]
    return built(given[0] if given else PROGRAM, "cd crates/nix_realise && rt run -- --help")


def room(need=2**28):
    """A folder for temporary files: a memory file system with so many bytes free, else the usual
    one. Scripts that write many files would wait for a disk."""
    try:
        if os.access(MEMORY, os.W_OK) and shutil.disk_usage(MEMORY).free >= need:
            return MEMORY
    except OSError:
        pass
    return tempfile.gettempdir()


@contextlib.contextmanager
def own_folder(what="", **where):
    """A folder that goes away at the end. A fault ends the script, and is told."""
    with tempfile.TemporaryDirectory(**where) as name:
        try:
            yield pathlib.Path(os.path.realpath(name))
        except Fault as fault:
            sys.exit(f"== {what}\n{fault}")


def option(words, name):
    return next((it.partition("=")[2] for it in words if it.startswith(name + "=")), None)


def quoted(text):
    escapes = {'"': '\\"', "\\": "\\\\", "\n": "\\n", "\r": "\\r", "\t": "\\t"}
    return '"' + "".join(escapes.get(letter, letter) for letter in text) + '"'


def draft(script, outputs=("out",), inputs=(), builder="/bin/sh", more=()):
    """A draft of a builder's script, with pairs of an input and an output, and more entries."""
    entries = {**dict([PATH, *((name, "") for name in outputs)]), **dict(more)}
    pairs = sorted(entries.items(), key=lambda entry: entry[0].encode())
    outs = ",".join(f'({quoted(name)},"","","")' for name in sorted(outputs))
    used = ",".join(f"({quoted(path)},[{quoted(name)}])" for path, name in sorted(inputs))
    words = f'"x86_64-linux",{quoted(builder)},["-c",{quoted(script)}]'
    env = ",".join(f"({quoted(key)},{quoted(value)})" for key, value in pairs)
    return f"Derive([{outs}],[{used}],[],{words},[{env}])"


def run(words, timeout=900, **more):
    """Runs a command, and gives its status, and what it wrote, as texts."""
    ran = subprocess.run(words, capture_output=True, timeout=timeout, check=False, **more)
    out, err = (text.decode(errors="surrogateescape") for text in (ran.stdout, ran.stderr))
    return ran.returncode, out, err


def put(program, store, name, text):
    file = store.parent / "draft"
    file.write_text(text, encoding="utf-8")
    status, out, err = run([program, "add-drv", "--store-dir", store, name, file])
    assert status == 0, (name, status, err)
    path = out.strip()
    return path, outputs_in(pathlib.Path(path).read_text(encoding="utf-8"))


def outputs_in(text):
    front = text.split("],[")[0]
    return {row.split('"')[1]: row.split('"')[3] for row in front.split("(")[2:]}


def entry_of(path):
    """What lies at a path: its kind, permissions, number, time of change, and what it holds."""
    found = os.lstat(path)
    holds = b""
    if stat.S_ISREG(found.st_mode):
        with open(path, "rb") as file:
            holds = file.read()
    elif stat.S_ISLNK(found.st_mode):
        holds = os.readlink(path)
    return found.st_mode, holds, found.st_ino, found.st_mtime_ns


@contextlib.contextmanager
def small_disk(folder, size):
    """A disk of so many bytes at a folder. Fails where none can be mounted."""
    words = ["mount", "-t", "tmpfs", "-o", f"size={size}", "tmpfs", folder]
    subprocess.run(words, check=True, capture_output=True, text=True)
    try:
        yield
    finally:
        subprocess.run(["umount", folder], check=True)


def is_running(pid):
    """Whether a process runs; one that has ended and is not yet waited for does not."""
    try:
        return pathlib.Path(f"/proc/{pid}/stat").read_text().rsplit(")", 1)[1].split()[0] != "Z"
    except OSError:
        return False


def until(what, holds, seconds=60):
    end = time.monotonic() + seconds
    while not holds():
        if time.monotonic() > end:
            raise Fault(f"within {seconds} s: {what}", "nothing of it")
        time.sleep(0.02)


def snapshot(folder):
    """All that stands below a folder, by its path there, but what goes away or becomes another
    kind of file meanwhile, what no path reaches, and the file that is locked."""
    found = {}
    for place, folders, files in os.walk(folder):
        for name in {*folders, *files} - {LOCK}:
            path = os.path.join(place, name)
            try:
                found[os.path.relpath(path, folder)] = entry_of(path)
            except OSError as error:
                if errno.errorcode[error.errno] not in CHANGED_MEANWHILE:
                    raise
    return found


def empty(folder):
    for name in os.listdir(folder):
        path = os.path.join(folder, name)
        if os.path.isdir(path) and not os.path.islink(path):
            shutil.rmtree(path)
        else:
            os.unlink(path)
