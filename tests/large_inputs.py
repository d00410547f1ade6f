"""Derivations, plans and journals at the limits of their sizes, made apart from the program."""

import hashlib
import os
import shutil
import sys
import tempfile

from reading import MAX_DRV
from scenes import quoted, room  # It lets the modules of bench be found.
from derivations import made, write_fixed
from store_paths import make_path, text_path

MAX_JOURNAL, DERIVATIONS, INPUTS = 134217728, 65536, 50000
ROOM = 3 * 2**29  # What the largest group of cases writes, with a good deal over.
FIRST = b"realiser-journal 2\n"
TWIN = b"twin\n"  # What each fixed output is.
digest_of = lambda data: "sha256:" + hashlib.sha256(data).hexdigest()
used = lambda path: f'("{path}",["out"])'  # An input derivation of which `out` is used.
outputs = lambda names, paths: ",".join(f'("{it}","{paths.get(it, "")}","","")' for it in names)
leaves = lambda place, count, script_of: [Row(place, n, script=script_of(n)) for n in range(count)]
# The lines that register some paths without digests and references.
added = lambda paths: "".join(f"A {path} -\n" for path in paths).encode()


class Place:
    """A store folder with a short path, and a folder beside it for other files."""

    # A path of the store folder; such paths rise with their numbers.
    path = lambda self, number, name="x": f"{self.folder}/{number:032d}-{name}"

    def __init__(self):
        self.folder = tempfile.mkdtemp(prefix="", dir=room(ROOM))
        self.aside = tempfile.mkdtemp(prefix="", dir=room(ROOM))
        self.journal = os.path.join(self.aside, "journal")

    def close(self):
        shutil.rmtree(self.folder)
        shutil.rmtree(self.aside)

    def put(self, name, text, references=()):
        path = text_path(self.folder, name + ".drv", text, references)
        with open(path, "wb") as file:
            file.write(text)
        return path

    def file(self, name, data):
        path = os.path.join(self.aside, name)
        with open(path, "wb") as file:
            file.write(data)
        return path

    def words(self, subcommand, *more, journal=None):
        """The words of a command line for the store folder and, if it has one, the journal."""
        has_journal = subcommand not in ("check", "add-drv")
        options = ["--journal", journal or self.journal] if has_journal else []
        return [subcommand, "--store-dir", self.folder, *options, *more]


def text_of(outputs='("out","","","")', inputs="", sources="", args="", env=""):
    """A derivation's text, of the elements of its lists."""
    front = f'Derive([{outputs}],[{inputs}],[{sources}],"x86_64-linux","/bin/sh",'
    return f"{front}[{args}],[{env}])".encode()


# How many elements of one length, given as a text, a derivation of 4 MiB has as this part.
most = lambda part, element: (MAX_DRV - len(text_of(**{part: ""})) + 1) // (len(element) + 1)
filled = lambda part, count, each: text_of(**{part: ",".join(map(each, range(count)))})


def listed_in(place, sources=(), drvs=()):
    """A derivation with these sources and inputs, and the paths of all."""
    text = text_of(sources=",".join(map(quoted, sources)), inputs=",".join(map(used, drvs)))
    return text, [*sources, *drvs]


def large_texts(place):
    """Derivations of 4 MiB, with the paths that they refer to, by their names: empty arguments, of
    which the last one is longer; variables; one argument whose bytes are all escaped; sources; at
    most 50,000 inputs; and sources and inputs whose paths lie between one another."""
    arguments = filled("args", most("args", '""'), lambda _: '""')
    last = b'"' + b"x" * (MAX_DRV - len(arguments)) + b'"],[])'
    yield "1,398,000 arguments", arguments.replace(b'""],[])', last), []
    element = '("%06d","")'
    yield "350,000 variables", filled("env", most("env", element % 0), element.__mod__), []
    escapes = "\\n" * ((MAX_DRV - len(text_of()) - 2) // 2)
    yield "two million escapes", text_of(args=f'"{escapes}"'), []
    source, drv = quoted(place.path(0)), used(place.path(0, "x.drv"))
    sources = [place.path(number) for number in range(most("sources", source))]
    yield f"{len(sources)} sources", *listed_in(place, sources)
    count = min(INPUTS, most("inputs", drv))
    drvs = [place.path(number, "x.drv") for number in range(count)]
    yield f"{count} inputs", *listed_in(place, (), drvs)
    count = (MAX_DRV - len(text_of())) // (len(source + drv) + 2)
    sources = [place.path(2 * number) for number in range(count)]
    drvs = [place.path(2 * number + 1, "x.drv") for number in range(count)]
    yield f"{2 * count} sources and inputs in turn", *listed_in(place, sources, drvs)


class Row:
    """A derivation of a plan: its path, its output's, its modulo hash and its inputs' paths."""

    draft = lambda self: self.text.replace(self.output, "")
    entry = lambda self, digest: f"D {self.path}\nO {self.output} {digest}\n"

    def __init__(self, place, number, inputs=(), script="echo hello > $out", sources=()):
        pairs = [(row.path, row.modulo) for row in inputs]
        found = made(place.folder, number, pairs, script, sources)
        self.path, self.text, self.output, self.modulo = found
        self.name = os.path.basename(self.path)[33:]
        self.inputs = [row.path for row in inputs]
        with open(self.path, "w", encoding="ascii") as file:
            file.write(self.text)


def chain(place, source):
    """65,536 derivations, each with the one before as its input; the first one has a source."""
    rows = [Row(place, 0, sources=[source])]
    for number in range(1, DERIVATIONS):
        rows.append(Row(place, number, rows[-1:]))
    return rows


def hub(place, rows):
    """A derivation with as many of these as inputs as 4 MiB hold, 50,000 at most."""
    count = (MAX_DRV - 2000) // (max(len(used(row.path)) for row in rows) + 1)
    return Row(place, len(rows), rows[: min(INPUTS, count)])


class Twin:
    """A derivation of a fixed output: its path, its output's and its modulo hash."""

    def __init__(self, place, number):
        script = f"echo twin > $out; : {number}"
        self.path, self.modulo = write_fixed(place.folder, "twin", script, [], TWIN)
        inner = hashlib.sha256(f"fixed:out:{digest_of(TWIN)}:".encode()).hexdigest()
        self.output = make_path("output:out", inner, place.folder, "twin")


def lines(rows, word_of, roots):
    """The lines of a plan or of a report: a line for each row, then the outputs of some roots."""
    told = sorted((row.path, word_of(row)) for row in rows)
    texts = [word.replace("PATH", path, 1) for path, word in told]
    return "\n".join([*texts, *(f"output {row.output}" for row in roots), ""]).encode()


def picture(rows, roots):
    """The graph of a plan all of which would be built."""
    bordered = {row.path for row in roots}
    nodes, edges = [], []
    for row in rows:
        border = ", peripheries=2" if row.path in bordered else ""
        style = f'label="{row.name}", style=filled, fillcolor=palegreen{border}'
        nodes.append((row.path, f'  "{row.path}" [{style}];'))
        edges += [(row.path, path, f'  "{row.path}" -> "{path}";') for path in row.inputs]
    drawn = [node[-1] for node in sorted(nodes)] + [edge[-1] for edge in sorted(edges)]
    return "\n".join(["digraph plan {", *drawn, "}", ""]).encode()


def with_outputs(place, names, text):
    """A draft of outputs, whose text is made of their paths; the filled text, and the paths."""
    modulo = hashlib.sha256(text({})).hexdigest()
    path_of = lambda name: make_path(f"output:{name}", modulo, place.folder, f"many-{name}")
    paths = {name: path_of(name) for name in names}
    return text({}), text(paths), list(paths.values())


def referring(place, source, own, front, back=""):
    """A draft whose output refers to a source, by what its builder finds as the output's path, and
    which has more entries; the filled text, and the output's path."""
    words = f'"-c",{quoted(f"echo {source} > {own}")}'
    env = lambda paths: f'{front},("o","{paths.get("o", "")}"){back}'
    parts = lambda paths: {"sources": quoted(source), "args": words, "env": env(paths)}
    return with_outputs(place, ["o"], lambda paths: text_of(outputs(["o"], paths), **parts(paths)))


def listing(place, listed, source):
    """One that may reach the listed paths: too long for a variable, they go into a file."""
    listed = f'("allowedRequisites","{" ".join(listed)}")'
    return referring(place, source, "$o", listed, ',("passAsFile","allowedRequisites")')


def limited(place, source, limit):
    """One of structured attributes, whose closure may have so many bytes."""
    own = r"""$(/bin/sed 's/.*"outputs":{"o":"\([^"]*\)".*/\1/' .attrs.json)"""
    checks = quoted(f'{{"outputChecks":{{"o":{{"maxClosureSize":{limit}}}}}}}')
    return referring(place, source, own, f'("__json",{checks})')


# What makes the outputs of `many_outputs`: each has the paths of so many before it.
BEFORE = 300
WRITER = """
import os
paths = [os.environ['o%04d' % number] for number in range(COUNT)]
for number, path in enumerate(paths):
    with open(path, 'w') as file:
        file.write(' '.join(paths[max(number - BEFORE, 0) : number]))
"""


def many_outputs(place, count, variables=0):
    """A draft of outputs that refer to one another, and of variables; its text, and the paths."""
    names = [f"o{number:04d}" for number in range(count)]
    others = [f'("v{number:06d}","")' for number in range(variables)]
    writer = WRITER.replace("COUNT", str(count)).replace("BEFORE", str(BEFORE))
    file = place.file(f"writer-{count}", writer.encode())
    args = f'"-c",{quoted(f"exec {sys.executable} {file}")}'
    named = lambda paths: [f'("{name}","{paths.get(name, "")}")' for name in names]
    env = lambda paths: ",".join([*named(paths), *others])
    text = lambda paths: text_of(outputs(names, paths), args=args, env=env(paths))
    return with_outputs(place, names, text)


def journal_of(place, length):
    """A journal of just this length, of about a million paths."""
    name = "p" * 70
    size = len(added([place.path(0, name)]))
    count = (length - len(FIRST) - size) // size
    text = FIRST + added(place.path(number, name) for number in range(count))
    return text + added([place.path(count, name + "q" * (length - len(text) - size))])
