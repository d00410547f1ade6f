"""Store folders in which builders run by a runner and without one, for `tests/runners`."""

import os
import pathlib
import re
import subprocess

from reading import entries_of
from scenes import HERE, draft, expect, put, run

RUNNERS, DRAFTS = HERE.parent / "examples/runners", HERE.parent / "examples/drafts"
# The store folder that the drafts of the demo name.
DEMO_PATH = re.compile(r"/tmp/nufreld-demo/store/[0-9a-z]{32}-([A-Za-z0-9+._?=-]+)")


class Scene:
    """A program, a store folder, and a folder outside of it."""

    expect = lambda self, what, wanted, got: expect(f"{what}\n{wanted}", f"{what}\n{got}")

    def __init__(self, program, folder):
        self.program, self.folder = program, pathlib.Path(folder)
        self.store, self.outside = self.folder / "store", self.folder / "outside"
        self.store.mkdir()
        self.outside.mkdir()
        self.journal = self.store / "realiser-journal"
        self.options = ()  # Of each run.

    def put(self, name, script, inputs=(), more=(), builder="/bin/sh", fixed=""):
        """Puts a derivation, whose script has the folder outside as $F, and whose output may have a
        SHA-256; its path and output's."""
        used, known = [(path, "out") for path in inputs], [("F", str(self.outside)), *more]
        text = draft(script, inputs=used, builder=builder, more=known)
        text = text.replace('"","")', f'"sha256","{fixed}")', 1) if fixed else text
        path, outputs = put(self.program, self.store, name, text)
        return path, outputs["out"]

    def words(self, subcommand, *more):
        return [self.program, subcommand, "--store-dir", str(self.store), *map(str, more)]

    def run(self, runner, paths, *options, begin=b""):
        """What a run prints, and its status, by a runner and over a journal, if any are given."""
        self.journal.unlink(missing_ok=True)
        if begin:
            self.journal.write_bytes(begin)
        given = ["--runner", runner] if runner else []
        given += self.options
        status, out, err = run(self.words("realise", *given, *options, *paths))
        return f"{out}{err}status {status}\n"

    def builds(self, what, name, script, runner, reason=None, **more):
        """Sees that a run builds a derivation, or that it fails for a reason. Gives the paths."""
        path, output = self.put(name, script, **more)
        self.expect(what, report(path, output, reason), self.run(runner, [path]))
        return path, pathlib.Path(output)

    def entries(self):
        rows = sorted(entries_of(str(self.store).encode(), self.journal.read_bytes()))
        return "".join(f"{row}\n" for row in rows)

    def demo(self):
        """Puts the demo's derivations into the store folder. Gives the paths that it realises."""
        text = HERE.parent / "examples/texts/greeting.txt"
        known = {"greeting.txt": run(self.words("add-text", "greeting.txt", text))[1].strip()}
        for name in ("greet", "split", "user", "guide", "broken", "shelf"):
            text = DEMO_PATH.sub(lambda it: known[it[1]], (DRAFTS / f"{name}.drv").read_text())
            # Other paths have changed the order of the inputs.
            front, inputs, rest = text.split("],[", 2)
            rows = sorted(re.findall(r'\("[^"]*",\[[^]]*\]\)', inputs))
            text = "],[".join([front, ",".join(rows), rest])
            path, outputs = put(self.program, self.store, name, text)
            known |= {pathlib.Path(it).name[33:]: it for it in (path, *outputs.values())}
        return [known[f"{name}.drv"] for name in ("user", "guide", "shelf")]


def edited(name, folder, **values):
    text = (RUNNERS / name).read_text()
    for key, value in values.items():
        text, count = re.subn(f"(?m)^{key}=.*$", f"{key}={value}", text)
        assert count == 1, f"wanted one line {key}=.. in {name}, found {count}"
    copy = pathlib.Path(folder) / name
    copy.write_text(text)
    copy.chmod(0o755)
    return copy


def last_lines(folder, count=5):
    texts = [(file.name, file.read_text(errors="replace")) for file in sorted(folder.glob("*.log"))]
    return "".join("\n".join([f"{name}:", *text.splitlines()[-count:], ""]) for name, text in texts)


def report(path, output, reason=None):
    """What a run of one derivation prints, which is built or fails for a reason, and its status."""
    if reason:
        return f"failed {path}: {reason}\nstatus 1\n"
    return f"built {path}\noutput {output}\nstatus 0\n"


def why_no_sandbox():
    """Why no sandbox can be made here, or none."""
    missing = [it for it in ("/usr/bin/bwrap", "/bin/busybox") if not os.access(it, os.X_OK)]
    if missing:
        return f"{' and '.join(missing)} not there"
    options = "--unshare-all --cap-drop ALL --ro-bind / / --dev /dev --proc /proc".split()
    words = ["/usr/bin/bwrap", *options, "/bin/true"]
    ran = subprocess.run(words, capture_output=True, text=True, check=False)
    if ran.returncode != 0:
        return f"bubblewrap cannot make one: {ran.stderr.strip()}"
    busybox = pathlib.Path("/bin/busybox").read_bytes()
    return "busybox is not a static program" if b"/ld-linux" in busybox[:4096] else None
