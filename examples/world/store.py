"""A store folder with the program that works on it: what is added, planned and realised there, and
how what was registered is compared with what grep and readlink find."""

import os
import pathlib
import re
import subprocess
import sys
import tempfile
import time

sys.path.insert(0, str(pathlib.Path(__file__).resolve().parent.parent.parent / "tools"))
from drafts import Source, draft, outputs_of, read  # noqa: E402

# A compiler writes the folder that it works in into what it makes, for debuggers. That is
# `.build-N`, and N, the number of the lease, may be another in each run. This option writes /build
# in its place, so that a builder has one answer, whatever the schedule.
FLAGS = """
    flags="-O2 -g -ffile-prefix-map=$NIX_BUILD_TOP=/build"
"""


class Store:
    """A store folder, and the program that works on it."""

    def __init__(self, program, folder):
        self.program, self.folder = program, folder
        self.journal = pathlib.Path(folder, "realiser-journal")

    def run(self, subcommand, *words):
        """What a subcommand prints, and its status."""
        words = [self.program, subcommand, "--store-dir", self.folder, *words]
        ran = subprocess.run(words, stdout=subprocess.PIPE, text=True, check=False)
        return ran.stdout, ran.returncode

    def call(self, subcommand, *words):
        """What a subcommand prints; ends where its status is not 0."""
        printed, status = self.run(subcommand, *words)
        if status != 0:
            sys.exit(f"{printed}world: {subcommand} ended with status {status}")
        return printed

    def source(self, path):
        """Adds a file under its own name."""
        return Source(self.call("add-text", path.name, path).strip())

    def derivation(self, name, outputs, script, **variables):
        """Adds a derivation that is drafted from these words, and gives its outputs."""
        with tempfile.NamedTemporaryFile("w") as file:
            file.write(draft(script, outputs.split(), variables | {"PATH": "/usr/bin:/bin"}))
            file.flush()
            return outputs_of(self.call("add-drv", name, file.name).strip())

    def package(self, name, outputs, script, **variables):
        """Adds a derivation that runs a script where its source was unpacked."""
        script = FLAGS + "    tar -xf $source --strip-components=1" + script
        return self.derivation(name, outputs, script, **variables)

    def entries(self):
        """The paths that the journal registers, each with its references."""
        found = {}
        for line in self.journal.read_text().splitlines():
            kind, path = line.split(" ")[:2]
            if kind in ("A", "O"):
                references = found.setdefault(path, set())
            elif kind == "R":
                references.add(path)
        return found


def foretell(store, root):
    """Gives what `nix_realise plan` says of an output before anything is built."""
    return store.call("plan", root.drv)


def reported(forecast):
    """The report of a run of which no builder fails, by its forecast."""
    for word, done in (("build ", "built "), ("reuse ", "reused "), ("refuse ", "refused ")):
        forecast = re.sub(f"(?m)^{word}", done, forecast)
    return forecast


def realise(store, plan, root, *options):
    """Realises an output of a plan, prints the report, and gives the paths of what was built; ends
    where that isn't what was not valid, or the report isn't as was foretold."""
    valid = store.entries()
    new = {it["out"].drv for it in plan.values() if it["out"].path not in valid}
    forecast = foretell(store, root)
    start = time.monotonic()
    report = store.call("realise", *options, root.drv)
    print(f"{report}{time.monotonic() - start:.2f} s")
    built = {line.removeprefix("built ") for line in report.splitlines() if "built " in line}
    if built != new:
        sys.exit(f"world: {built} was built, where {new} was not valid")
    if report != reported(forecast):
        sys.exit(f"world: the report is\n{report}where this was foretold:\n{forecast}")
    return built


def closure(paths, entries):
    """These paths, and what they refer to, directly or not."""
    found, coming = set(), set(paths)
    while coming:
        path = coming.pop()
        found.add(path)
        coming |= entries[path] - found
    return found


def targets_at(path):
    """The targets of all links at a path, by their own paths; none is followed."""
    if os.path.islink(path):
        return {path: os.readlink(path)}
    found = []
    for folder, folders, files in os.walk(path):
        found += [os.path.join(folder, name) for name in folders + files]
    return {place: os.readlink(place) for place in found if os.path.islink(place)}


def parts_at(path, parts):
    """The hash parts that grep finds in the files at a path, and readlink in the targets of its
    links."""
    found = {part for target in targets_at(path).values() for part in parts if part in target}
    # grep -r passes links over, but for one that it is called with.
    if os.path.islink(path):
        return found
    words = ["grep", "-rhoaF", *(f"-e{part}" for part in parts), path]
    known = os.environ | {"LC_ALL": "C"}
    grep = subprocess.run(words, capture_output=True, text=True, check=False, env=known)
    if grep.returncode > 1:
        sys.exit(f"world: grep ended with status {grep.returncode}\n{grep.stderr}")
    return found.union(grep.stdout.split())


def permitted(outputs, entries):
    """The paths to which the outputs of a derivation may refer, by their hash parts."""
    _, inputs, sources, *_ = read(outputs["out"].drv)
    used = [outputs_of(drv)[name].path for drv, names in inputs for name in names]
    own = [output.path for output in outputs.values()]
    paths = closure([*used, *sources], entries).union(own)
    return {os.path.basename(path)[:32]: path for path in paths}


def compare_references(plan, entries):
    """Prints the references of each output, and how many links it has; ends where they are not
    those permitted paths whose hash parts are found in it."""
    for outputs in plan.values():
        paths = permitted(outputs, entries)
        for path in (output.path for output in outputs.values()):
            found = {paths[part] for part in parts_at(path, paths)}
            if found != entries[path]:
                sys.exit(f"world: {path} has the references {entries[path]}, and {found} are found")
            count = len(targets_at(path))
            links = f" ({count} link{'s' * (count > 1)})" if count else ""
            names = sorted(os.path.basename(reference)[33:] for reference in found)
            print(f"    {os.path.basename(path)[33:]}{links}:", *names)
