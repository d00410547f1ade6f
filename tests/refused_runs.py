"""The scenes of `refused-calls` and `refused-growths` for `plan` and `realise`."""

import json
import os
import re
import shutil

from refused_scenes import ALL, FIRST_LINE, JOURNAL, LEAVES, Scene, variant
from scenes import contents, draft, run, snapshot

SCRIPTS = {
    "first": "echo first > $out",
    "second": "mkdir -p $out/sub junk/deep; echo a > $out/a; echo b > $out/sub/b;"
    " : > junk/deep/f; : > junk/g",
    "third": "mkdir junk $dev; : > junk/f; echo d > $dev/d; echo third > $out",
}
# The placeholder of `out`.
PLACEHOLDER = "/1rz4g4znpzjwh1xymhjpm42vipw92pr73vdgl6xs1hycac8kf2n9"
OUTPUTS = {"first": ["out"], "second": ["out"], "third": ["dev", "out"]}
REASONS = '(NoStart|ReadFault|MissingOutput\\("out"\\)|ExitStatus\\(\\d+\\)|OutOfMemory|Killed)'
OWN = re.compile(
    r"(\.build-[012]|(build/)?\.nix_realise-(left-)?[0-4]|build/nix-build-(?!first-0)\w+-\d)(/|$)"
)


class Plan(Scene):
    """`plan` of three derivations: the second uses the first; the third has an old output."""

    subcommand = name = "plan"
    scripts, options, entries = SCRIPTS, (), ()
    # Whether the first derivation is realised before, and those that are built then.
    is_begun, builds = False, ()
    users = ("second",)  # Those that use the first.
    entries_of = lambda self, name: self.entries  # What an environment has besides.
    good = lambda self: (0, self.report(dict.fromkeys(SCRIPTS, "build")), "")

    def prepare(self):
        self.drv, self.paths = {}, {}
        for name, script in self.scripts.items():
            inputs = [(self.drv["first"], "out")] if name in self.users else []
            text = draft(script, OUTPUTS[name], inputs, more=self.entries_of(name))
            self.drv[name], outputs = self.put(name, text)
            self.paths[name] = [outputs[output] for output in OUTPUTS[name]]
        self.old_files[JOURNAL] = FIRST_LINE + f"A {self.store}/{'a' * 32}-x -\n"
        self.old_files[os.path.basename(self.paths["third"][-1]) + "/old/file"] = "old\n"
        self.old_files[".build-0/old/file"] = "old\n"
        if self.is_begun:
            run([self.program, "realise", "--store-dir", self.store, self.drv["first"]])
            for path in (str(self.journal), *self.paths["first"]):
                self.old_files[os.path.basename(path)] = open(path).read()

    def command(self):
        places = {"TRACE": self.folder / "trace", "LOGS": self.logs, "BUILD": self.build}
        options = [places.get(word, word) for word in self.options]
        return [*options, self.drv["second"], self.drv["third"]]

    def place_of(self, calls, at):
        path = calls[at].path
        if path in self.drvs:
            return "derivation"
        return "journal read" if path == str(self.journal) else ""

    def report(self, words):
        """The report where each derivation has such a line, and the roots such outputs."""
        rows = ((self.drv[name], word.partition(":")) for name, word in words.items())
        lines = [f"{word} {drv}{colon}{reason}\n" for drv, (word, colon, reason) in sorted(rows)]
        for name in ("second", "third"):
            if words[name] in ("built", "build"):
                lines += [f"output {path}\n" for path in self.paths[name]]
        return "".join(lines)


class Realise(Plan):
    """`realise` of all three by one worker."""

    subcommand = name = "realise"
    options, builds = ("--jobs", "1"), {*SCRIPTS}
    failed = None  # The one that fails where a call is refused.
    good = lambda self: (0, self.report(dict.fromkeys(SCRIPTS, "built")), "")
    races = lambda self, calls, at: [False, True] if self.moves_to(calls, at, False) else [False]

    def of_output(self, path):
        for name, outputs in self.paths.items():
            if any(f"{path}/".startswith(f"{output}/") for output in outputs):
                return name
        return None

    def derivation_of(self, calls, at):
        """The derivation that a call's thread works for: its output, or a folder by its name."""
        own = (it.path for it in reversed(calls[: at + 1]) if it.thread == calls[at].thread)
        named = lambda path: re.findall(r"/nix-build-(\w+)-\d", path)[-1:]
        found = (self.of_output(path) or "".join(named(path)) for path in own)
        return next(filter(None, found), None)

    def has_started(self, calls, at):
        """Whether the call's thread has started the builder of its derivation."""
        for place in reversed(range(at)):
            call = calls[place]
            if call.thread == calls[at].thread and call.kind == "spawn" and not call.is_refused:
                return self.derivation_of(calls, place) == self.derivation_of(calls, at)
        return False

    def place_of(self, calls, at):
        call, path = calls[at], calls[at].to
        if call.kind in ("print", "wait"):
            return {"print": "", "wait": "end"}[call.kind]
        if call.kind == "thread":
            # The first one keeps the journal while the run goes on.
            is_later = any(it.kind == "thread" for it in calls[:at])
            return ("one of two" if "2" in self.options else "only") if is_later else "keeper"
        if self.is_of_lock(call):
            return "lock"
        if path.endswith("/var/nix/db/db.sqlite"):
            return "database of Nix"
        if path in self.drvs:
            return "derivation"
        if path == str(self.store):
            return "store folder"
        if "/.nix_realise-left-" in path:
            is_taken = bool(self.moves_to(calls, at, True)) != self.is_raced
            return "folder aside" if is_taken or self.has_started(calls, at) else "name aside"
        if path.endswith(str(self.journal)) or "/.nix_realise-" in path:
            return self.place_of_journal(calls, at)
        if call.kind in ("make-folder", "spawn") or path == "/dev/null":
            return "start"
        if self.has_started(calls, at):
            return "output" if self.of_output(path) else "build folder"
        is_taken = os.path.relpath(path, self.store).split("/")[0] in self.laid
        return "taken place" if is_taken else "free place"

    def place_of_journal(self, calls, at):
        """Where a call at the journal or its temporary file was made, or by the thread for it."""
        call, path = calls[at], calls[at].to
        if call.thread != calls[0].thread:
            return "journal kept"
        own = [it for it in calls[: at + 1] if it.thread == call.thread]
        if path == str(self.journal) and call.kind != "rename":
            looks = [it.path for it in own if it.kind == "look"].count(path)
            return ("journal read", "journal tried", "journal written")[looks - 1]
        return "journal tried" if self.made_beside(own) == 1 else "journal written"

    def moves_to(self, calls, at, is_before):
        """What others moved to the name of a refused rename; or before the thread's next look."""
        call, end = calls[at], len(calls)
        if call.kind != "rename":
            return []
        if is_before:
            own = [n for n in range(at, end) if calls[n].thread == call.thread]
            end = next((n for n in own if calls[n].kind == "look"), at)
        moves = [it for it in calls[:end] if it.kind == "rename" and it.thread != call.thread]
        return [it for it in moves if it.to == call.to and not it.is_refused]

    def told_of(self, told, calls=(), at=None):
        self.failed = None
        if told not in ("NoStart", "ReadFault") or at is None:
            return super().told_of(told, calls, at)
        self.failed = self.derivation_of(calls, at)
        words = {**dict.fromkeys(SCRIPTS, "built"), self.failed: f"failed: {told}"}
        if self.failed == "first":
            words["second"] = f"refused: InputNotRealised({self.drv['first']})"
        return 1, self.report(words), ""

    def rows(self, form):
        """An expression for a report whose lines for derivations have a form."""
        rows = [form.format(re.escape(drv)) for drv in sorted(self.drvs)]
        paths = [*self.paths["second"], *self.paths["third"]]
        return "".join(rows), [f"output {re.escape(path)}\n" for path in paths]

    def is_again(self, out):
        # The first one is not wanted where the second is valid.
        rows, outputs = self.rows("((built|reused) {0}\n)?")
        return re.fullmatch(rows + "".join(outputs), out) is not None

    def is_stated(self, told):
        status, out, err = told
        form = f"((built|reused) {{0}}|failed {{0}}: {REASONS}"
        rows, outputs = self.rows(form + "|refused {0}: InputNotRealised\\(.*\\))\n")
        if out and not err:
            is_bad = re.search("^(failed|refused) ", out, re.M) is not None
            whole = rows + "".join(f"({output})?" for output in outputs)
            return re.fullmatch(whole, out) is not None and status == int(is_bad)
        return super().is_stated(told)

    def journal_of(self, found):
        """The entries of the journal, and whether those of before stand first."""
        text = found[JOURNAL][1].decode() if JOURNAL in found else ""
        old = self.old_files[JOURNAL]
        # With the first output under the profile nix the text goes over to version 3.
        in_three = old.replace("journal 2", "journal 3").replace(" -\n", " - -\n")
        begins = in_three if text.startswith(in_three) else old
        entries = re.split("^(?=[AD] )", text[len(begins) :], flags=re.M)
        return text.startswith(begins), [entry for entry in entries if entry]

    def known(self, found):
        """The derivations that the journal knows as an undisturbed run knows them."""
        entries = self.journal_of(found)[1]
        last = self.journal_of(self.last or contents(found))[1]
        drv = {entry.split()[1]: entry for entry in last}
        return {name for name in SCRIPTS if drv.get(self.drv[name]) in entries}

    def names_of(self, found, name, bits):
        bases = [os.path.basename(path) for path in self.paths[name]]
        return {n: (e[0] & bits, e[1]) for n, e in found.items() if n.split("/")[0] in bases}

    def strays(self, found, stands):
        is_last, last = isinstance(stands, dict), self.last or contents(found)
        stray = [name for name in self.rest(found, stands) if name not in self.left]
        is_longer, entries = self.journal_of(found)
        known, wanted = self.known(found), self.wanted(stands, is_last)
        if not is_longer or not {*entries} <= {*self.journal_of(last)[1]}:
            stray.append(JOURNAL)
        for name in SCRIPTS:
            # Some of what a failed builder left may have its canonical mode.
            bits = 0o170000 if stands in ("less", "whole") and name not in known else 0o177777
            held, *may = (self.names_of(it, name, bits) for it in (found, self.laid, last))
            if stands in ("new", "moved", "outputs") or is_last or name in known:
                may = may[1:]
            elif stands in ("old", "left"):
                may = may[:1]
            if held not in may and (held or len(may) == 1) and (stands or name in known):
                stray.append(self.paths[name][-1])
        if wanted not in (None, known):
            stray.append(f"{JOURNAL} registers {sorted(known)}")
        return sorted(stray)

    def wanted(self, stands, is_last):
        """The derivations that the journal has to know."""
        if stands in ("old", "left", "outputs"):
            return set()
        if stands in ("new", "moved") or is_last:
            return self.builds
        lost = {"first", "second"} if self.failed == "first" else {self.failed}
        return self.builds - lost if stands == "less" else None

    def rest(self, found, stands):
        """Names beside the outputs and the journal that are new, or gone, or changed."""
        stray = []
        for name in {*found, *self.laid} - {JOURNAL}:
            is_own = OWN.match(name)
            if self.of_output(str(self.store / name)):
                continue
            if is_own and stands in LEAVES:
                self.left |= {name} & {*found}
            elif is_own and (name not in found or name in self.laid and stands == "old"):
                continue
            elif found.get(name) != self.laid.get(name):
                stray.append(name)
        return stray


class RealiseByRunner(Realise):
    """The same by a runner and with logs, where build folders of failed builders are kept."""

    name = "realise by a runner"
    options = ("--keep-failed", "--logs", "LOGS", "--runner", "/usr/bin/env")
    kept = ""

    def lay(self):
        super().lay()
        self.kept = ""
        shutil.rmtree(self.logs, ignore_errors=True)

    def place_of(self, calls, at):
        call = calls[at]
        if (call.kind, call.path) == ("look", "/usr/bin/env"):
            return "runner"
        if call.path.startswith(str(self.logs)):
            return "logs" if call.path == str(self.logs) else "log"
        return super().place_of(calls, at)

    def told_of(self, told, calls=(), at=None):
        status, out, err = super().told_of(told, calls, at)
        if self.failed:
            drv = self.drv[self.failed]
            err += f"nix_realise: {drv}: failed, see {self.logs}/{os.path.basename(drv)}.log\n"
        if self.failed and told == "ReadFault":
            own = [it for it in calls[:at] if it.thread == calls[at].thread]
            made = [it.path for it in own if it.kind == "make-folder" and not it.is_refused]
            self.kept = os.path.relpath(made[-1], self.folder).removeprefix("store/")
            err += f"nix_realise: {drv}: kept {made[-1]}\n"
        return status, out, err

    def is_stated(self, told):
        status, out, err = told
        seen = re.findall("^nix_realise: .*: failed, see .*\n", err, re.M)
        rest = re.sub("^nix_realise: .*: (failed, see|kept) .*\n", "", err, flags=re.M)
        is_told = len(seen) == len(re.findall("^failed ", out, re.M))
        return is_told and super().is_stated((status, out, rest))

    def rest(self, found, stands):
        # What is kept may be moved aside by the next run, and is not then.
        kept = {name for name in found if self.kept and f"{name}/".startswith(f"{self.kept}/")}
        self.left |= kept
        return [name for name in super().rest(found, stands) if name not in kept]


class RealiseUnderNix(RealiseByRunner):
    """The same under `nix`, with a passed file, a link, and build folders of which one is taken."""

    name = "realise under nix"
    options = (*RealiseByRunner.options, *"--profile nix --build-dir BUILD --cores 3".split())
    scripts = {**SCRIPTS, "first": "cat $kPath > $out"}
    scripts["third"] += "; ln -s d $dev/link"
    entries = (("k", "first\n"), ("passAsFile", "k"))

    def lay(self):
        shutil.rmtree(self.build, ignore_errors=True)
        (self.build / "nix-build-first-0").mkdir(parents=True)
        super().lay()

    def found(self):
        made = snapshot(self.build).items()
        return {**super().found(), **{f"build/{name}": entry for name, entry in made}}

    def place_of(self, calls, at):
        call = calls[at]
        if call.path == str(self.build):
            return "folder of build folders"
        if call.kind == "resolve":
            return "path of the store"
        if call.path == "/dev/kvm":
            return "feature kvm"
        if "/nix-build-" in call.path and call.kind in ("create", "write", "permissions"):
            return "start"
        return super().place_of(calls, at)

    def passes(self, call, name):
        is_made = call.kind == "make-folder" and "/nix-build-" in call.path
        return is_made and name == "EEXIST" or super().passes(call, name)


class RealiseOfGraphs(Realise):
    """`realise` of what asks for graphs: the second by structured attributes, with checks."""

    name, has_calls, users = "realise of graphs", False, ("second", "third")
    options = (*Realise.options, *"--profile nix --build-dir BUILD".split())
    scripts = {**SCRIPTS, "second": f"/bin/cat .attrs.json .attrs.sh > {PLACEHOLDER}"}
    scripts["third"] = "echo d > $dev; /bin/cat graph > $out"

    def lay(self):
        shutil.rmtree(self.build, ignore_errors=True)
        self.build.mkdir()
        super().lay()

    def entries_of(self, name):
        path = "".join(self.paths.get("first", ()))
        graph = {"exportReferencesGraph": {"graph": [path]}, "impureEnvVars": ["X"]}
        graph |= {"requiredSystemFeatures": ["big-parallel"], "list": ["a", 1, True, None]}
        checks = {"maxSize": 9999, "maxClosureSize": 99999, "disallowedRequisites": []}
        graph["outputChecks"] = {"out": {**checks, "allowedReferences": ["out", path]}}
        if name == "second":
            return (("__json", json.dumps(graph)),)
        return (("exportReferencesGraph", f"graph {path}"),) if name == "third" else ()


class RealiseFailing(RealiseByRunner):
    """`realise` with logs, a runner and kept folders, where a builder fails."""

    name, has_calls = "realise of what fails", False
    scripts, builds = {**SCRIPTS, "third": "exit 3"}, {"first", "second"}
    is_again = lambda self, out: f"failed {self.drv['third']}: ExitStatus(3)\n" in out

    def rest(self, found, stands):
        return [name for name in super().rest(found, stands) if not name.startswith(".build-")]


BEGUN, TRACED = {"has_calls": False, "is_begun": True}, ("--trace", "TRACE", "--jobs", "2")
SCENES = [
    *ALL,
    Plan,
    # Rows and large-cases say what the graph is.
    variant(Plan, "plan --dot", options=("--dot",), good=lambda self: None),
    Realise,
    variant(Realise, "realise by two", options=("--jobs", "2")),
    RealiseByRunner,
    RealiseUnderNix,
    RealiseOfGraphs,
    variant(Plan, "plan of what is begun", **BEGUN),
    variant(Realise, "realise of what is begun", **BEGUN, builds={"second", "third"}),
    variant(Realise, "realise, traced, shown", options=TRACED, has_calls=False, is_shown=True),
    RealiseFailing,
]
