"""Reads the sources for the pages that `make` writes: modules with their contracts, and files of
definitions."""

import functools
import pathlib
import re
import textwrap

TOP = pathlib.Path(__file__).resolve().parent.parent
CRATES = TOP / "crates"
WORD = r"[A-Za-z_][A-Za-z_0-9]*"


def blanked(source):
    """A source of the same length, with blanks for comments and for the insides of strings."""
    kinds = r"//[^\n]*|\"(?:[^\"\\]|\\.)*\"|'(?:[^'\\\n]|\\.)'"
    return re.sub(kinds, lambda it: re.sub(r"[^\n]", " ", it[0]), source, flags=re.S)


def block_end(source, start, pair="{}"):
    """Where the block ends whose first bracket is the next one from here on."""
    depth = 0
    for place in range(source.index(pair[0], start), len(source)):
        depth += {pair[0]: 1, pair[1]: -1}.get(source[place], 0)
        if depth == 0:
            return place + 1
    return len(source)


def above(lines, number, mark):
    """The comment with this mark that stands above a line and its attributes."""
    while (
        number and re.match(r"\s*(#\[.*|\)?\]?)$", lines[number - 1]) and lines[number - 1].strip()
    ):
        number -= 1
    end = number
    while number and re.match(rf"\s*{mark}(?: |$)", lines[number - 1]):
        number -= 1
    return [re.sub(rf"^\s*{mark} ?", "", it) for it in lines[number:end]]


def coded(names):
    return ", ".join(f"`{it}`" for it in names)


def filled(text, indent=""):
    """A text in lines of at most 98 columns."""
    return textwrap.fill(
        text, 98, subsequent_indent=indent, break_long_words=False, break_on_hyphens=False
    )


def one_line(text):
    """A signature on one line."""
    text = re.sub(r"\s+", " ", text).strip()
    text = re.sub(r"([(<\[{]) ", r"\1", text)
    return re.sub(r",? ([)>\]])", r"\1", text).rstrip(" ,")


def taken(text, how):
    """What a text takes from files of specs/: the name here, crate, file and own name."""
    for crate, place, listed in re.findall(
        how + r" Rattle\.(\w+)\.specs\.((?:private\.)?\w+)\.\{([^}]*)\}", text
    ):
        file = place.replace(".", "/")
        for words in map(str.split, listed.split(",")):
            if words and (CRATES / crate / "specs" / f"{file}.antt").exists():
                yield words[-1], crate, file, words[0]


def source(crate, file, name):
    """Where a definition stands: a file can hand on one of another file."""
    text = (CRATES / crate / "specs" / f"{file}.antt").read_text()
    return next(
        (tuple(place) for here, *place in taken(text, "pub use") if here == name),
        (crate, file, name),
    )


class Module:
    """A module of a crate: its text, and what of it is public."""

    def __init__(self, path, names, is_public):
        self.name, self.crate, self.raw = (
            path.stem,
            path.relative_to(CRATES).parts[0],
            path.read_text(),
        )
        self.path = path
        self.code, self.lines = blanked(self.raw), self.raw.split("\n")
        self.names, self.is_public = names, is_public
        self.taken = self.imports()

    def imports(self):
        """What the module calls the definitions that it takes from specs/: crate, file and own
        name, by the name here."""
        return {here: source(*place) for here, *place in taken(self.code, "ghost use")}

    def cites(self, clauses):
        """The definitions that clauses cite, in their order."""
        return list(
            dict.fromkeys(
                self.taken[it] for it in re.findall(WORD, " ".join(clauses)) if it in self.taken
            )
        )

    def doc(self, place, mark="///"):
        return above(self.lines, self.raw.count("\n", 0, place), mark)

    def head(self):
        """What the module's own documentation says, without a table."""
        found = [re.sub(r"^//! ?", "", it) for it in self.lines if it.startswith("//!")]
        return [it for it in found if not it.startswith("|")]

    def clauses(self, start):
        """The clauses of the function whose signature begins here, each with its word, and where
        the signature and the contract end."""
        found, end, token = (
            [],
            None,
            re.compile(r"\b(?:ensures|requires)\b|\[[^\[\]]*;[^\[\]]*\]|[{;]"),
        )
        while at := token.search(self.code, start):
            start = at.end()
            if at[0][0] == "[":
                continue
            end = end or at.start()
            if at[0] in "{;":
                return found, end, at.start()
            start = block_end(self.code, at.end())
            found.append((at[0], self.code[self.code.index("{", at.end()) + 1 : start - 1]))

    def blocks(self):
        """The impl and trait blocks: the trait that is implemented, the type or trait, whether it
        is a trait, start and end."""
        head = rf"(?m)^(pub trait|impl)\b([^{{;]*)\{{"
        for found in re.finditer(head, self.code):
            words = re.sub(r"\bwhere\b.*", "", found[2], flags=re.S)
            if words.lstrip().startswith("<"):
                words = words[block_end(words, 0, "<>") :]
            of, _, name = words.rpartition(" for ")
            yield of.strip(), re.match(WORD, name.strip())[0], found[
                1
            ] == "pub trait", found.start(), block_end(self.code, found.start())


class Function:
    """A function with a body: its name with that of its type, the trait that it is of, if it is of
    one, its clauses, the code of its body, and how many lines that has without comments."""

    def __init__(self, module, found, blocks):
        self.crate, self.module = module.crate, module.name
        clauses, _, opens = module.clauses(found.end())
        inside = [it for it in blocks if it[3] <= found.start() < it[4]]
        self.of, owner, *_ = inside[0] if inside else ("", "")
        self.name = f"{owner}::{found[1]}" if owner else found[1]
        self.is_free, self.has_body = not owner, module.code[opens] == "{"
        self.has_clause = any(word == "ensures" for word, _ in clauses)
        end = block_end(module.code, opens) if self.has_body else opens
        self.body = module.code[opens + 1 : end - 1]
        lines = module.raw[opens + 1 : end - 1].split("\n")
        self.lines = sum(bool(it.strip()) and not it.lstrip().startswith("//") for it in lines)


@functools.cache
def functions_of(crate):
    """The functions of a crate, module by module, those of traits without a body too."""
    modules = [Module(it, set(), True) for it in sorted((CRATES / crate / "src").glob("**/*.rt"))]
    return [
        Function(module, it, [*module.blocks()])
        for module in modules
        for it in re.finditer(rf"(?m)^ *(?:pub(?:\(crate\))? )?fn ({WORD})", module.code)
    ]


def body_lines(crate, module, name):
    """How many lines the body of a function has, without comments."""
    for it in functions_of(crate) if (CRATES / crate / "src").exists() else ():
        if (it.module, it.name, it.has_body) == (module, name, True):
            return it.lines
    raise LookupError(f"{crate}::{module} has no function {name}")


class Definitions:
    """A file of specs/: the comment at its head, and the comments above its definitions."""

    def __init__(self, crate, file):
        self.path = CRATES / crate / "specs" / f"{file}.antt"
        self.lines = self.path.read_text().split("\n")
        end = next(
            (at for at, it in enumerate(self.lines) if not it.startswith("--")), len(self.lines)
        )
        self.about = " ".join(it[2:].strip() for it in self.lines[:end])

    def place(self, name):
        """The number of the line at which a definition begins, or None."""
        heads = (
            rf"(?:abbrev |unfoldable )?pub (?:record |data )?{re.escape(name)}(?![\w'])",
            rf"  (?:pub )?(?:data )?{re.escape(name)} :",
        )
        return next(
            (at for head in heads for at, it in enumerate(self.lines) if re.match(head, it)), None
        )

    def text(self, name):
        """The lines of a definition, without the comment above it: those of its block, which a
        blank line ends."""
        first = last = self.place(name)
        while (
            first and self.lines[first - 1].strip() and not self.lines[first - 1].startswith("--")
        ):
            first -= 1
        while last < len(self.lines) and self.lines[last].strip():
            last += 1
        return self.lines[first:last]

    def comment(self, name):
        at = self.place(name)
        return "" if at is None else " ".join(above(self.lines, at, "--")).strip()
