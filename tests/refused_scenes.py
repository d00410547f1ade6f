"""The scenes of `refused-calls` and `refused-growths`: what is laid, which command is run, and what
is stated of it. Those of `plan` and `realise` stand in `refused_runs.py`."""

import hashlib
import os
import re
import shutil

from scenes import HERE, LOCK, contents, draft, empty, put, run, snapshot, text_path
from store_paths import base32

# What is told where a call is refused: the status, standard output, and what follows the program's
# name on standard error. `ever` stands for what an undisturbed run tells.
TOLD = {
    "ever": None,
    "bad": (2, "bad", ""),
    "file": (2, "", "FILE: Unreadable"),
    "derivation": (2, "", "DRV: Unreadable"),
    "no archive": (2, "", "input: Unreadable"),
    "unread": (3, "", "journal: Unreadable"),
    "unwritten": (3, "", "journal: Unwritable"),
    "unlocked": (3, "", "STORE: Unwritable"),
    "unregistered": (3, "PATH\n", "journal: Unwritable"),
    "no text": (3, "PATH\n", "PATH: Unwritable"),
    "no derivation": (3, "", "PATH: Unwritable"),
    "unprinted": (3, "", "run: Unwritable"),
    "untold": (3, "", ""),
    "no thread": (3, "", "run: ThreadFault"),
    "no runner": (2, "", "/usr/bin/env: NoRunner"),
    "no logs": (3, "", "LOGS: Unwritable"),
    "no build folder": (3, "", "BUILD: Unwritable"),
    "NoStart": (1, "report", ""),
    "ReadFault": (1, "report", ""),
}
WRITING = "look create permissions write sync rename"
READING, OF_TREES = "look open read", "read-link open-folder list"
MAKING = "look make-folder create write permissions link"
# The scenes, the kinds of call, where the call was made; what is told, and what stands then: the
# old files, the new ones, the new text beside the old journal (text), outputs that the old journal
# does not know (outputs), all but what needs the derivation (less), the old files and a temporary
# one that could not be removed (left), the new ones and a folder that should be gone (moved).
ROWS = [
    ("check verify", READING, "derivation", "bad", "old"),
    ("verify", OF_TREES, "derivation", "bad", "old"),
    ("dump hash", f"{READING} {OF_TREES}", "file", "file", "old"),
    ("restore", "read", "", "no archive", "old"),
    ("restore", MAKING, "file", "no derivation", "old"),
    ("restore", MAKING, "file of what is cut short", "ever", "old"),
    ("restore", "look open-folder list remove", "what was made", "ever", "left"),
    ("add-text add-drv words", "open read", "file", "file", "old"),
    ("add-text realise", "create lock", "lock", "unlocked", "old"),
    ("add-text plan realise verify", READING, "journal read", "unread", "old"),
    ("check add-text plan help dump hash verify", "print", "", "unprinted", "old"),
    ("add-text", WRITING, "path", "no text", "old"),
    ("add-text", WRITING, "journal written", "unregistered", "text"),
    ("add-drv plan realise", READING, "derivation", "derivation", "old"),
    ("add-drv", WRITING, "path", "no derivation", "old"),
    ("add-drv realise", "print", "", "unprinted", "new"),
    ("realise", "look resolve", "folder of build folders", "no build folder", "old"),
    ("realise", "resolve", "path of the store", "ever", "new"),
    ("realise", "open", "feature kvm", "ever", "new"),
    ("realise", "look", "database of Nix", "ever", "new"),
    ("realise", "open-folder list", "store folder", "ever", "new"),
    ("realise", "look create", "journal tried", "unwritten", "old"),
    ("realise", "remove", "journal tried", "unwritten", "left"),
    ("realise", "look", "runner", "no runner", "old"),
    ("realise", "make-folder", "logs", "no logs", "old"),
    ("realise", "remove", "log", "ever", "new"),
    ("realise", "create duplicate", "log", "NoStart", "less"),
    ("realise", "thread", "keeper", "ever", "new"),
    ("realise", "thread", "only", "no thread", "old"),
    ("realise", "thread", "one of two", "ever", "new"),
    ("realise", "look", "free place", "NoStart", "less"),
    ("realise", "look open-folder remove", "taken place", "ever", "new"),
    ("realise", "look rename", "name aside", "NoStart", "less"),
    ("realise", "look rename open-folder list remove", "folder aside", "ever", "moved"),
    ("realise", "make-folder create write permissions open spawn", "start", "NoStart", "less"),
    ("realise", "wait", "end", "ReadFault", "less"),
    ("realise", f"{READING} {OF_TREES} permissions times", "output", "ReadFault", "less"),
    ("realise", "look open-folder remove", "build folder", "ever", "new"),
    ("realise", WRITING, "journal written", "unwritten", "outputs"),
    ("realise", WRITING, "journal kept", "ever", "new"),
    ("words restore", "tell", "", "untold", "old"),
]
JOURNAL, FIRST_LINE = "realiser-journal", "realiser-journal 2\n"
DOTTED = re.compile(r"\.nix_realise-(left-)?\d+(/|$)|\.build-\d+(/|$)")
# What stands after a run that may leave temporary files: nothing is stated, or each file is whole.
LEAVES = (None, "whole", "left", "moved")
KEPT_FOLDERS = (".build-9", "other")
KEPT_FILES = (".nix_realise-7", ".build-9/file", "other/file", "file")
# An archive that Nix wrote, of folders with a file, a program and a link; its digest; a name.
ARCHIVE = (HERE / "archives/deep.nar").read_bytes()
DIGEST, NAME = hashlib.sha256(ARCHIVE).hexdigest(), "a" * 32 + "-tree"
MET = set()
# The same scene with another name, and with other settings.
variant = lambda kind, name, **more: type(name, (kind,), {"name": name, **more})


def row_of(subcommand, kind, place):
    """What is told where a call is refused, and what stands then."""
    for number, (names, kinds, where, told, stands) in enumerate(ROWS):
        if subcommand in names.split() and kind in kinds.split() and where == place:
            MET.add((number, subcommand, kind))
            return told, stands
    raise AssertionError(f"no row for {subcommand}, {kind}, {place!r}")


def rows_not_met():
    """The rows' kinds of call that were never refused. A short run may keep no journal."""
    for number, (names, kinds, where, _, _) in enumerate(ROWS):
        calls = {(number, name, kind) for name in names.split() for kind in kinds.split()}
        left = sorted(calls - MET) if where != "journal kept" else []
        yield from (f"{name}: {kind}, {where}" for _, name, kind in left)


class Scene:
    """A store folder with files that no run may touch, and a command."""

    subcommand = name = ""
    # Whether calls are refused to it too, and all is stated; whether standard error is a terminal.
    has_calls, is_shown = True, False
    is_raced = False  # Whether two workers' calls were made in another order than they were logged.
    stdin, trees = b"", {}  # What standard input gives; archives whose trees stand before a run.
    # The words after the folder's option; where a call is made; whether a next run tells the same.
    command = lambda self: []
    place_of = lambda self, calls, at: ""
    is_again = lambda self, out: out == self.ample[1]
    # What an undisturbed run tells; none if that is not stated.
    good = lambda self: (0, self.path + "\n", "")
    found = lambda self: snapshot(self.store)  # All that stands where a run writes.
    begin_again = lambda self: None  # What is done before the next run.
    # Whether a call opens the journal, which may be gone by then: it counts as empty; or makes or
    # opens the file that is locked, or asks for its lock.
    is_of_journal = lambda self, call: call.kind == "open" and call.path == str(self.journal)
    is_of_lock = lambda self, call: call.kind == "lock" or call.path == f"{self.store}/{LOCK}"
    # The orders that are possible of the refused call and those of other workers.
    races = lambda self, calls, at: [False]

    def __init__(self, program, folder):
        self.program, self.folder, self.store = program, folder, folder / "store"
        self.store.mkdir(exist_ok=True)
        empty(self.store)
        self.journal = self.store / JOURNAL
        self.file, self.logs, self.build = folder / "file", folder / "logs", folder / "build"
        # The files before a run, and what those that it writes were and become.
        self.old_files, self.own = {}, {}
        self.drvs, self.path, self.last = [], "", None
        self.prepare()

    def prepare(self):
        """Makes the derivations, and says which files stand before a run."""

    def put(self, name, text):
        """Makes a derivation that stands before a run. Gives its path and those of its outputs."""
        path, outputs = put(self.program, self.store, name, text)
        self.old_files[os.path.basename(path)] = open(path).read()
        self.drvs.append(path)
        return path, outputs

    def words(self):
        words = [self.subcommand, "--store-dir", self.store, *self.command()]
        return [self.program, *map(str, words)]

    def lay(self):
        empty(self.store)
        for name in KEPT_FOLDERS:
            (self.store / name).mkdir()
        for name, text in {**dict.fromkeys(KEPT_FILES, "kept\n"), **self.old_files}.items():
            path = self.store / name
            path.parent.mkdir(exist_ok=True, parents=True)
            path.write_text(text)
            path.chmod(0o640 if name in self.old_files else 0o644)
        for name, archive in self.trees.items():
            run([self.program, "restore", self.store / name], input=archive)
        self.laid, self.left = self.found(), set()

    def made_beside(self, calls):
        """How many files these calls make, but for the file that is locked."""
        return sum(call.kind == "create" and not self.is_of_lock(call) for call in calls)

    def passes(self, call, name):
        """Whether a run goes on as ever where a call is refused with an error."""
        if name == "EEXIST" and call.kind == "create":
            return ".nix_realise-" in call.path and not self.is_of_lock(call)
        return name in ("EINTR", "EOPNOTSUPP")

    def told_of(self, told, calls=(), at=None):
        """What is told: status, standard output, standard error."""
        if told == "ever":
            return self.ample
        status, out, err = TOLD[told]
        places = {"FILE": self.file, "PATH": self.path, "STORE": self.store, "LOGS": self.logs}
        places["BUILD"] = self.build
        for word, path in places.items():
            out, err = out.replace(word, str(path)), err.replace(word, str(path))
        err = err.replace("DRV", calls[at].path) if at is not None else err
        return status, out, f"nix_realise: {err}\n" if err else ""

    def outcome(self, at, calls):
        """What is told where the call at this place is refused, and what stands then."""
        if at is None:
            return *self.ample, "new"
        told, stands = row_of(self.subcommand, calls[at].kind, self.place_of(calls, at))
        return *self.told_of(told, calls, at), stands

    def is_stated(self, told):
        """Whether a run, in which many calls were refused, told what is stated."""
        status, out, err = told
        if not err:
            return status in (self.ample[0], 3) and self.ample[1].startswith(out)
        lines = {self.told_of(name)[2]: TOLD[name][0] for name in TOLD if TOLD[name]}
        lines |= {f"nix_realise: {drv}: Unreadable\n": 2 for drv in self.drvs}
        lines[self.ample[2]] = self.ample[0]
        return lines.get(err) == status and self.ample[1].startswith(out)

    def permitted(self, stands):
        """What each own file may be, by its name."""
        if stands in ("old", "left", "new", "moved"):
            place = int(stands in ("new", "moved"))
            return {name: (texts[place],) for name, texts in self.own.items()}
        return self.own

    def strays(self, found, stands):
        """What stands though it must not, or does not though it must."""
        if isinstance(stands, dict):
            held = contents(found)
            names = {name for name in {*held, *stands} if held.get(name) != stands.get(name)}
            return sorted(names - self.left)
        stray = []
        for name in {*found, *self.laid} - {*self.own}:
            if name not in self.laid and DOTTED.match(name) and stands in LEAVES:
                self.left.add(name)
            elif found.get(name) != self.laid.get(name):
                stray.append(name)
        for name, may in self.permitted(stands).items():
            held = found[name][1].decode(errors="replace") if name in found else None
            stray += [] if held in may else [name]
        return sorted(stray)


class Check(Scene):
    """`check` of two derivations."""

    subcommand = name = "check"
    bad, ends = 2, ["run: Unwritable"]  # The status where one is bad, and the other faults.
    command = lambda self: self.drvs
    place_of = lambda self, calls, at: "derivation" if self.read_at(calls[at]) else ""
    good = lambda self: (0, "".join(f"ok {path}\n" for path in self.drvs), "")

    def read_at(self, call):
        """What the command reads by a call."""
        return next((it for it in self.drvs if f"{call.path}/".startswith(f"{it}/")), None)

    def prepare(self):
        for name in ("one", "two"):
            self.put(name, draft("echo " + name + " > $out"))

    def told_of(self, told, calls=(), at=None):
        if told == "bad" and at is not None:
            bad = self.read_at(calls[at])
            rows = [f"bad {p}: Unreadable\n" if p == bad else f"ok {p}\n" for p in self.drvs]
            return self.bad, "".join(rows), ""
        return super().told_of(told, calls, at)

    def is_stated(self, told):
        rows = [f"(ok {re.escape(p)}|bad {re.escape(p)}: Unreadable)\n" for p in self.drvs]
        if told[0] in (0, self.bad) and not told[2]:
            return re.fullmatch("".join(rows), told[1]) and (told[0] > 0) == ("bad" in told[1])
        ends = ["", *(f"nix_realise: {end}\n" for end in self.ends)]
        return told[0] == 3 and told[1] == "" and told[2] in ends


class Verify(Check):
    """`verify` of a tree and of a file by a journal."""

    subcommand = name = "verify"
    bad, ends = 1, [*Check.ends, "journal: Unreadable"]
    command = lambda self: []

    def prepare(self):
        self.trees = {NAME: ARCHIVE}
        self.drvs = [f"{self.store}/{name}" for name in (NAME, "b" * 32 + "-file")]
        digest = f"r:sha256:{DIGEST} {DIGEST}:{len(ARCHIVE)}"
        flat = f"sha256:{hashlib.sha256(b'text').hexdigest()} -"
        text = f"realiser-journal 3\nA {self.drvs[0]} {digest}\nA {self.drvs[1]} {flat}\n"
        self.old_files = {JOURNAL: text, os.path.basename(self.drvs[1]): "text"}

    def place_of(self, calls, at):
        is_journal = calls[at].path == str(self.journal)
        return "journal read" if is_journal else super().place_of(calls, at)


class Dump(Scene):
    """`dump` of a tree."""

    subcommand = name = "dump"
    trees = {NAME: ARCHIVE}
    words = lambda self: [self.program, self.subcommand, self.path]
    good = lambda self: (0, ARCHIVE.decode(errors="surrogateescape"), "")
    place_of = lambda self, calls, at: "file" if calls[at].path.startswith(self.path) else ""

    def prepare(self):
        self.file, self.path = self.store / NAME, f"{self.store}/{NAME}"


class Restore(Dump):
    """`restore` of a tree."""

    subcommand = name = "restore"
    trees, stdin = {}, ARCHIVE
    good = lambda self: (0, "", "")
    # What is told of an archive without its last eight bytes.
    cut = property(lambda self: (2, "", f"nix_realise: {self.path}: BadNar({len(ARCHIVE) - 8})\n"))
    begin_again = lambda self: shutil.rmtree(self.path, ignore_errors=True)

    def place_of(self, calls, at):
        # All of the archive comes at once, and then its end.
        if not (place := super().place_of(calls, at)) or self.stdin == ARCHIVE:
            return place
        is_ended = [call.kind for call in calls[:at]].count("read") == 2
        return "what was made" if is_ended else "file of what is cut short"

    def strays(self, found, stands):
        if isinstance(stands, dict):
            return super().strays(found, stands)
        of_tree = lambda some: {it: some[it][:2] for it in some if it.split("/")[0] == NAME}
        made, whole = of_tree(found), of_tree(self.last)
        rest = {name: entry for name, entry in found.items() if name not in made}
        wanted = {"old": {}, "whole": {}, "new": whole, "moved": whole or made}.get(stands, made)
        return super().strays(rest, stands) + ([] if made == wanted else [NAME])


class AddText(Scene):
    """`add-text` over an old file and a journal; or of a valid path, where no file is changed."""

    subcommand = name = "add-text"
    is_old, is_valid, held = True, False, JOURNAL
    command = lambda self: ["greeting", self.file]

    def prepare(self):
        text = "a text of its own\n"
        self.file.write_text(text)
        self.path = text_path(str(self.store), "greeting", text.encode())
        base = os.path.basename(self.path)
        old = FIRST_LINE + f"A {self.store}/{'a' * 32}-x -\n"
        if self.is_old:
            self.old_files = {base: "an old text\n", self.held: old}
        new = old if self.is_old else FIRST_LINE
        new += f"A {self.path} sha256:{hashlib.sha256(text.encode()).hexdigest()}\n"
        before = self.old_files.get
        self.own = {base: (before(base), text), self.held: (before(self.held), new)}
        if self.is_valid:
            self.old_files[self.held] = new
            self.own = {name: (held, held) for name, held in self.old_files.items()}

    def place_of(self, calls, at):
        call, path = calls[at], os.path.abspath(calls[at].path)
        if call.kind == "print":
            return ""
        if self.is_of_lock(call):
            return "lock"
        if path == os.path.abspath(self.file):
            return "file"
        if path == os.path.abspath(self.journal):
            looks = [c.path for c in calls[: at + 1] if c.kind == "look"].count(str(self.journal))
            return "journal read" if looks == 1 else "journal written"
        is_first = self.made_beside(calls[: at + 1]) == 1
        return "path" if is_first or call.to == self.path else "journal written"

    def permitted(self, stands):
        if stands == "text":
            return {name: (pair[name != self.held],) for name, pair in self.own.items()}
        return super().permitted(stands)


class AddTextRelative(AddText):
    """`add-text` of a file, and by a journal, that are given by relative paths."""

    name, held = "add-text, relative", "journal"
    command = lambda self: ["--journal", self.journal, *super().command()]

    def prepare(self):
        super().prepare()
        self.file, self.journal = map(os.path.relpath, (self.file, self.store / self.held))


class AddDrv(AddText):
    """`add-drv` of a draft with an input, over an old file."""

    subcommand = name = "add-drv"
    command = lambda self: ["high", self.file]

    def prepare(self):
        path, outputs = self.put("low", draft("echo low > $out"))
        text = draft(f"cat {outputs['out']} > $out", inputs=[(path, "out")])
        self.path, _ = put(self.program, self.store, "high", text)
        base = os.path.basename(self.path)
        self.file.write_text(text)
        self.old_files[base] = "an old derivation"
        self.own = {base: ("an old derivation", open(self.path).read())}

    def place_of(self, calls, at):
        return "derivation" if calls[at].path in self.drvs else super().place_of(calls, at)


class Words(Scene):
    """Words of which a line is told, or what standard output refuses."""

    subcommand = "words"
    given, told = [], None
    good = lambda self: self.told
    place_of = lambda self, calls, at: "file" if calls[at].path == str(self.file) else ""
    prepare = lambda self: self.file.write_text("a text\n")

    def words(self):
        places = {"STORE": str(self.store), "FILE": str(self.file)}
        return [self.program, *(places.get(word, word) for word in self.given)]


NAMED = ["add-text", "--store-dir", "STORE", "a/name", "FILE"]
ELSEWHERE = ["check", "--store-dir", "store", "x"]
WRONG = (2, "", "nix_realise: a/name: BadName\n")
FOLDER = (2, "", "nix_realise: store: BadStoreDir\n")
VERSION = (0, "nix_realise 0.1.0\n", "")
HASHED = (0, f"sha256:{base32(bytes.fromhex(DIGEST))} {len(ARCHIVE)}\n", "")
ALL = [
    Check,
    Verify,
    Dump,
    variant(Dump, "hash", subcommand="hash", good=lambda self: HASHED),
    Restore,
    variant(Restore, "restore, cut short", stdin=ARCHIVE[:-8], good=lambda self: self.cut),
    AddText,
    variant(AddText, "add-text, no journal", is_old=False),
    AddTextRelative,
    variant(AddText, "add-text, valid", is_valid=True),
    AddDrv,
    variant(Words, "words", given=NAMED, told=WRONG),
    variant(Words, "words, a bad folder", given=ELSEWHERE, told=FOLDER),
    variant(Words, "words, no option", given=["check", "--frob"]),
    variant(Words, "words, no profile", given=["realise", "--profile", "x", "x"]),
    variant(Words, "help", subcommand="help", given=["--version"], told=VERSION),
    variant(Words, "help, faults", subcommand="help", given=["help", "faults"]),
]
