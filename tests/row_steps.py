"""Takes the steps of a row in a store folder of its own.

A word in angle brackets stands for a text: `<dir>` for the store folder, `<above>` for the folder
above it, in which the program runs, `<tools>` for that of the tools, `<bom>` for a byte order mark,
`<tab>` and `<cr>` for a tab and a carriage return, `<xff>` and `<nul>` for bytes, and other words
for what earlier steps name.

`put any` writes a draft to `<dir>/file` and lets `add-drv` add it under the name `any`: then
`<any>` stands for the derivation's path, `<any.out>` for that of its output `out`, `<any.file>` for
the name of its file, `<any.name>` for that name without hash part and end, and `<any.out.nar>` for
what a journal says of the archive of what lies at that path.
`script any <input>..` does so with a draft whose builder is a shell over the text, and which uses
the output `out` of each input. `many N any MOST <input>..` adds N of them, `<any-0>` and so on, and
`<any-*>` stands for all their paths: in their text `<n>` is the number, and `<inputs>` are the
outputs of those before that one uses too, at most MOST, given by chance.
`twins any one TEXT other TEXT` adds two drafts, `rising` one: `<try>` is the first number with
which the paths of the two, or of the outputs, rise. `order` names the lesser and the greater of two
paths `<lesser>` and `<greater>`. `drv <any> any.drv` writes a derivation to its own path, which is
computed here, as are those of `text-path`, `output-path` and `fixed-path`. `digest <word>` lets a
word stand for the SHA-256 digest of a text.

`has-lines` compares the lines of a file in any order, `holds` its whole text; `ran` compares those
of the file to which builders add. `unchanged` sees that the store folder is as it was at the last
`note`. The steps of runs stand in `row_runs.py`.
"""

import hashlib
import math
import os
import pathlib
import random
import re
import stat
import types

from reading import own_path
from row_lab import take_lab
from row_runs import RUNS, Run
from row_traces import take_trace
from scenes import HERE, LOCK, Fault, draft, expect, outputs_in, snapshot, told
from store_paths import make_path, text_path

WORD = re.compile(r"<[^<>\s]+>")
# How many numbers are tried for an order of paths: of two that comes in one of two cases.
MOST_TRIES = 64
ORDER = "<lesser>", "<greater>"
WINDOW = 10  # How far before one of many derivations those may be that it uses.
sha256 = lambda text: hashlib.sha256(text.encode()).hexdigest()  # The SHA-256 digest of a text.
# A text with its lines sorted.
in_order = lambda text: "".join(sorted(text.splitlines(keepends=True)))
# The names and the paths of the outputs of the derivation at a path.
outputs_at = lambda path: outputs_in(pathlib.Path(path).read_text(errors="surrogateescape"))
# A step that does something with the file at its first path, and with its text.
at_path = lambda take: lambda scene, step: take(scene.path(step.words[0]), scene.text(step))
# A step that compares what lies at paths.
is_kind = lambda kind: on_paths(lambda path: expect(kind, kind_of(path)))


class Scene:
    """A store folder below a folder, in which the program runs."""

    text = lambda self, step, label="": self.said(step.texts.get(label, ""))  # A text of a step.
    # Takes a step. Fails where something else comes of it than it says.
    take = lambda self, step: TAKEN[step.kind](self, step)

    def __init__(self, program, folder, texts, library=None):
        self.program, self.folder, self.texts = program, folder, texts
        self.library = library
        self.dir = folder / "store"
        self.dir.mkdir()
        self.names = {"<dir>": str(self.dir), "<bom>": "\ufeff", "<tab>": "\t", "<cr>": "\r"}
        self.names |= {"<above>": str(folder), "<xff>": "\udcff", "<nul>": "\0"}
        self.names["<tools>"] = str(HERE.parent / "tools")
        self.runs, self.seconds, self.quickest, self.user = {}, 0, math.inf, {}

    def close(self):
        """Ends the runs that were started, and what they left."""
        for run in self.runs.values():
            run.kill()

    def said(self, text):
        """A text in which each word is replaced by its text."""

        def meant(found):
            word = found[0]
            if word.endswith(".file>"):
                return pathlib.Path(meant([word[:-6] + ">"])).name
            if word.endswith(".name>"):
                return pathlib.Path(meant([word[:-6] + ">"])).stem[33:]
            if word.endswith(".nar>"):
                return nar_at(pathlib.Path(meant([word[:-5] + ">"])))
            return self.said(self.texts[word]) if word in self.texts else self.names.get(word, word)

        return WORD.sub(meant, text)

    def words(self, words):
        """The words of a command line, where one of all paths stands for several."""
        lists = [self.said(it).split() if it.endswith("*>") else [self.said(it)] for it in words]
        return [word for words in lists for word in words]

    def path(self, text):
        """The path that a word of a step gives."""
        path = self.said(text)
        if WORD.search(path):
            raise Fault("a path", path)
        return self.folder / path

    def put(self, name, word, text):
        """Puts the derivation of a draft into the store folder, and names its paths by a word."""
        file = self.dir / "file"
        file.write_text(self.said(text), errors="surrogateescape", newline="")
        words = ["nix_realise", "add-drv", "--store-dir", str(self.dir), name, str(file)]
        ran = Run(self, words).ended()
        expect(told(ran.out, "", 0), told(*ran))
        path = self.names[f"<{word}>"] = ran.out.rstrip("\n")
        self.names |= {f"<{word}.{output}>": found for output, found in outputs_at(path).items()}
        return path


def strings_at(path):
    """The strings of the archive (NAR) of what lies at a path."""
    yield from (b"(", b"type")
    if path.is_symlink():
        yield from (b"symlink", b"target", os.fsencode(os.readlink(path)))
    elif path.is_dir():
        yield b"directory"
        for name in sorted(map(os.fsencode, os.listdir(path))):
            yield from (b"entry", b"(", b"name", name, b"node")
            yield from (*strings_at(path / os.fsdecode(name)), b")")
    else:
        mark = (b"executable", b"") if path.stat().st_mode & stat.S_IXUSR else ()
        yield from (b"regular", *mark, b"contents", path.read_bytes())
    yield b")"


def nar_at(path):
    """The SHA-256 and the length of the archive of what lies at a path."""
    strings = (b"nix-archive-1", *strings_at(path))
    archive = b"".join(len(it).to_bytes(8, "little") + it + bytes(-len(it) % 8) for it in strings)
    return f"{hashlib.sha256(archive).hexdigest()}:{len(archive)}"


def take_script(scene, step):
    """Puts a derivation whose builder is a shell over a text, and which uses outputs `out`."""
    name, *inputs = map(scene.said, step.words)
    scene.put(name, name, draft(scene.text(step), inputs=[(path, "out") for path in inputs]))


def take_many(scene, step):
    """Puts many such derivations into the store folder."""
    count, name, most, *inputs = map(scene.said, step.words)
    chance, words = random.Random(1), [f"<{name}-{number}" for number in range(int(count))]
    for number, word in enumerate(words):
        before = words[max(0, number - WINDOW) : number]
        used = chance.sample(before, min(len(before), chance.randint(0, int(most))))
        scene.names["<n>"] = str(number)
        scene.names["<inputs>"] = scene.said(" ".join(f"{it}.out>" for it in used))
        named = [word[1:], *inputs, *(f"{it}>" for it in used)]
        take_script(scene, types.SimpleNamespace(words=named, texts=step.texts))
    scene.names[f"<{name}-*>"] = scene.said(" ".join(f"{word}>" for word in words))


def take_rising(scene, step):
    """Puts two derivations into the store folder, whose paths rise, or one, whose outputs' do."""
    (name,) = step.words
    is_one = step.kind == "rising"
    for number in range(MOST_TRIES):
        scene.names["<try>"] = str(number)
        paths = [scene.put(name, word or name, text) for word, text in step.texts.items()]
        rising = list(outputs_at(paths[0]).values()) if is_one else paths
        if rising == sorted(rising):
            return
        for path in paths:
            os.remove(path)
    raise Fault("a number with which the paths rise", "none")


def naming(give):
    """A step that lets its first word stand for what its text and its other words give."""

    def take(scene, step):
        word, *others = step.words
        scene.names[word] = give(scene, scene.text(step), *map(scene.said, others))

    return take


def output_path(scene, text, name, output="out"):
    """The path of an output of a draft without inputs."""
    name = name if output == "out" else f"{name}-{output}"
    return make_path(f"output:{output}", sha256(text), str(scene.dir), name)


def fixed_path(scene, _, name, fixed):
    """The path of the output `out` that is fixed by a method, a colon and a digest."""
    kind, digest = "source", fixed.removeprefix("r:sha256:")
    if digest == fixed:
        kind, digest = "output:out", sha256(f"fixed:out:{fixed}:")
    return make_path(kind, digest, str(scene.dir), name)


def write_drv(scene, text, name):
    """Writes a derivation to its own path under a name, and gives that path."""
    path = own_path(os.fsencode(scene.dir), name.encode(), text.encode()).decode()
    pathlib.Path(path).write_text(text, newline="")
    return path


def unchanged(scene, _):
    """Compares what stands in the store folder with what stood there at the last note."""
    found = snapshot(scene.dir)
    names = sorted({*found, *scene.noted})
    differs = [name for name in names if found.get(name) != scene.noted.get(name)]
    expect("", "".join(f"another {name}\n" for name in differs))


def entries(scene, step):
    """Counts the files and folders in the store folder, but for the file that is locked."""
    wanted, found = scene.said(step.words[0]), sorted({*os.listdir(scene.dir)} - {LOCK})
    if len(found) != int(wanted):
        raise Fault(f"{wanted} files and folders", f"{len(found)}: {' '.join(found)}")


def on_paths(take):
    """A step that does the same at each of its paths."""

    def take_all(scene, step):
        for word in step.words:
            take(scene.path(word))

    return take_all


def fill(scene, step):
    """Writes a file of one letter that is repeated."""
    path, count, letter = step.words
    scene.path(path).write_bytes(letter.replace("\\n", "\n").encode() * int(count))


def text_at(path, wanted):
    """The text of a file that is to have this text."""
    try:
        return path.read_bytes().decode(errors="backslashreplace")
    except OSError as error:
        raise Fault(wanted, f"no file: {error.strerror}") from None


def kind_of(path):
    """What lies at a path, where a link is one even if it leads nowhere."""
    if not os.path.lexists(path):
        return "nothing"
    kinds = {stat.S_ISLNK: "link", stat.S_ISFIFO: "pipe", stat.S_ISDIR: "folder"}
    kinds |= {stat.S_ISSOCK: "socket", stat.S_ISCHR: "device"}
    mode = path.lstat().st_mode
    return next((kind for is_kind, kind in kinds.items() if is_kind(mode)), "file")


def has_mode(scene, step):
    """Compares the permissions of a file or folder."""
    path, wanted = step.words
    expect(wanted, f"{stat.S_IMODE(scene.path(path).lstat().st_mode) & 0o777:03o}")


TAKEN = {
    **RUNS,
    "lab": take_lab,
    "trace": take_trace,
    "put": lambda scene, step: scene.put(*step.words * 2, step.texts.get("", "")),
    "script": take_script,
    "many": take_many,
    "twins": take_rising,
    "rising": take_rising,
    "text-path": naming(lambda scene, text, name: text_path(str(scene.dir), name, text.encode())),
    "output-path": naming(output_path),
    "fixed-path": naming(fixed_path),
    "drv": naming(write_drv),
    "repeat": naming(lambda _, __, count, letter: letter * int(count)),
    "digest": naming(lambda _, text: sha256(text)),
    "order": lambda scene, step: scene.names.update(zip(ORDER, sorted(scene.words(step.words)))),
    "note": lambda scene, _: setattr(scene, "noted", snapshot(scene.dir)),
    "unchanged": unchanged,
    "write": at_path(lambda path, text: path.write_text(text, "utf-8", "surrogateescape", "")),
    "fill": fill,
    "folder": on_paths(lambda path: path.mkdir(parents=True, exist_ok=True)),
    "mode": lambda scene, step: scene.path(step.words[0]).chmod(int(scene.said(step.words[1]), 8)),
    "link": lambda scene, step: scene.path(step.words[0]).symlink_to(scene.path(step.words[2])),
    "move": lambda scene, step: scene.path(step.words[0]).rename(scene.path(step.words[2])),
    "pipe": on_paths(os.mkfifo),
    "remove": on_paths(os.unlink),
    "holds": at_path(lambda path, wanted: expect(wanted, text_at(path, wanted))),
    "has-lines": at_path(lambda path, text: expect(in_order(text), in_order(text_at(path, text)))),
    "ends": at_path(lambda path, end: expect(end, text_at(path, end)[-len(end) :])),
    "has-mode": has_mode,
    **{f"is-{kind}": is_kind(kind) for kind in ("link", "pipe", "file", "folder")},
    "missing": is_kind("nothing"),
    "entries": entries,
}
