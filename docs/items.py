"""The public items of a crate, and the lines in which a page has them."""

import re
import textwrap

from sources import CRATES, TOP, WORD, Module, blanked, block_end, coded, filled, one_line


def anchor(heading):
    """The name of a heading in links."""
    plain = re.sub(r"\[([^\]]*)\]\([^)]*\)", r"\1", heading).lower()
    return re.sub(r"[^\w\- ]", "", plain).replace(" ", "-")


def heading_of(file, name):
    return f"`{name}`, in `{file}`"


def place_of(here, crate, file, name):
    """The link by which a page leads to a definition."""
    return f"{'' if crate == here else crate + '.md'}#{anchor(heading_of(file, name))}"


class Item:
    """A public item, as it is written to a page: its heading, the text in its code block, and what
    is said of it."""

    def __init__(self, module, place, text, cites=(), is_short=False):
        self.crate, self.text, self.doc, self.cites, self.is_short = (
            module.crate,
            text,
            module.doc(place),
            list(cites),
            is_short,
        )
        self.title, self.code, self.note, self.parts, self.traits = text, text, "", [], []

    def lines(self):
        """The item's lines, with those of its parts."""
        if self.is_short:
            yield filled(
                f"- `{self.text}`: {' '.join(self.doc)}" if self.doc else f"- `{self.text}`", "  "
            )
            return
        yield from [f"#### `{self.title}`", "", "```rust", *self.code.split("\n"), "```"]
        yield from ["", *self.doc] if self.doc else []
        if self.cites or self.note or self.traits:
            yield from ["", filled(self.beside())]
        for at, part in enumerate(self.parts):
            yield from [""] * (not at or not part.is_short or not self.parts[at - 1].is_short)
            yield from part.lines()

    def beside(self):
        """What is said beside the documentation."""
        by = ", ".join(f"[`{it[2]}`]({place_of(self.crate, *it)})" for it in self.cites)
        told = [("By", by), ("Is", coded(self.traits))]
        return " ".join(
            [*[f"{word} {found}." for word, found in told if found], *[self.note] * bool(self.note)]
        )

    def all_cites(self):
        return [*self.cites, *[it for part in self.parts for it in part.all_cites()]]


def function(module, owner, start, at):
    """The item of a function: owner is its type, start is where its line begins, at is where its
    name does."""
    clauses, end, last = module.clauses(at)
    name = re.sub(r"\bmut (?=\w+:)", "", one_line(module.code[at:end]))
    item = Item(
        module,
        start,
        f"{owner}::{name}" if owner else name,
        module.cites(text for _, text in clauses),
    )
    item.title = "::".join([owner] * bool(owner) + [re.match(WORD, name)[0]])
    item.code = textwrap.dedent(module.raw[start:last].rstrip())
    item.note = "" if clauses else "No clause of its own."
    return item


def functions(module, start, end, is_public):
    """The places of the functions between two places: of their lines, and of their names."""
    for found in re.finditer(rf"(?m)^ *(pub )?(?:unsafe )?fn (?={WORD})", module.code[start:end]):
        if found[1] or is_public:
            yield start + found.start(), start + found.end()


def parts(module, start, end, pattern):
    """The public fields or the variants of a type."""
    for found in re.finditer(pattern, module.code[start:end]):
        yield Item(
            module, start + found.start(1), one_line(found[1]).removeprefix("pub "), is_short=True
        )


def type_item(module, found):
    """The item of a type, a constant or a trait, with its fields or variants."""
    kind, start = found[1], found.start()
    # What stands after `=` is a value, or the default of a type parameter.
    ends = "{;(" if kind in ("struct", "enum", "trait") else "{;(="
    end = next(it for it in range(found.end(), len(module.code)) if module.code[it] in ends)
    text = (
        module.raw[start:end]
        if kind != "const" and kind != "type"
        else module.raw[start : module.code.index(";", start)]
    )
    item = Item(module, start, one_line(text.removeprefix("pub ")).replace(" {", ""))
    item.title, item.code = f"{kind} {found[2]}", text.rstrip().removesuffix("{").rstrip()
    item.traits += derived(module, start)
    if kind in ("struct", "enum") and module.code[end] == "{":
        last = block_end(module.code, start)
        pattern = (
            rf"(?m)^    (pub {WORD}: [^\n]*)"
            if kind == "struct"
            else rf"(?m)^    ({WORD}(?:\([^\n]*\)|,| \{{[^}}]*\}}))"
        )
        item.parts += parts(module, end, last, pattern)
    return item


def derived(module, start):
    """The traits that a type derives, less those that every type here has."""
    before = module.raw[:start].rsplit("\n\n", 1)[-1]
    names = re.findall(WORD, " ".join(re.findall(r"#\[derive\(([^)]*)\)\]", before)))
    return [it for it in names if it not in ("Drop", "Debug")]


def ghosts(module, name, start, end):
    """The ghost members of a trait."""
    for found in re.finditer(rf"(?m)^ *(ghost {WORD}): \{{", module.code[start:end]):
        at = start + found.start(1)
        item = Item(module, at, found[1])
        item.title = f"{name}::{found[1].split()[1]}"
        item.code = textwrap.dedent(" " * 4 + module.raw[at : block_end(module.code, at)])
        item.doc = module.doc(at, "//")
        yield item


def seen_as(module, start, end):
    """What contracts see a type as, by its impl of Model."""
    found = re.search(r"ghost Value = \{([^}]*)\}", module.code[start:end])
    return module.cites([found[1]]) if found else []


def model(module, start, end):
    """The text of a type's impl of Model: as what contracts see a value, and what holds of each."""
    return re.sub(r"(?m)^ *ghost use .*\n\n?", "", module.raw[start:end])


def implemented(module, of, name, start, end):
    """The items of a type's impl of a trait: what is documented there."""
    block = Item(module, start, f"impl {of} for {name}")
    block.parts += [
        function(module, f"<{name} as {of}>", *at)
        for at in functions(module, start, end, True)
        if module.doc(at[0])
    ]
    for it in block.parts:
        # Without a clause of its own it has those of the trait.
        it.note = ""
    return [block] if block.doc or block.parts else []


def types(module):
    """The items of a module's public types, constants and traits, by name."""
    found = re.finditer(rf"(?m)^pub (struct|enum|trait|const|type) ({WORD})", module.code)
    return {
        it[2]: type_item(module, it) for it in found if it[2] in module.names or module.is_public
    }


def add_block(module, made, of, name, is_trait, start, end):
    """Adds what an impl or a trait block has to the item of its type."""
    item = made[name]
    if of == "Model":
        item.cites += seen_as(module, start, end)
        item.code += "\n\n" + model(module, start, end)
    elif of:
        item.traits.append(one_line(of))
        item.parts += implemented(module, one_line(of), name, start, end)
    else:
        item.parts += ghosts(module, name, start, end) if is_trait else []
        item.parts += [
            function(module, name, *at) for at in functions(module, start, end, is_trait)
        ]


def free_functions(module):
    """The items of a module's public functions that belong to no type."""
    spans = [(start, end) for *_, start, end in module.blocks()]
    for start, at in functions(module, 0, len(module.code), False):
        is_named = re.match(WORD, module.code[at:])[0] in module.names
        if (is_named or module.is_public) and not any(a <= start < b for a, b in spans):
            yield function(module, "", start, at)


def items(modules):
    """The public items of each module of a crate."""
    own = [types(it) for it in modules]
    made = {name: item for it in own for name, item in it.items()}
    for module in modules:
        for block in module.blocks():
            if block[1] in made:
                add_block(module, made, *block)
    return [[*it.values(), *free_functions(module)] for module, it in zip(modules, own)]


def root_of(crate):
    """The root file of a crate: of a library, or of a program."""
    roots = [CRATES / crate / "src" / it for it in ("lib.rt", "main.rt")]
    return next(it for it in roots if it.exists())


def tabled(text):
    """The modules that the table at the head of a file names, in their order."""
    rows = re.findall(r"(?m)^//! \| (`[^|]*) \|", text)
    return [it for row in rows for it in re.findall(r"`(\w+)`", row)]


class Crate:
    """A crate: its modules in the order of its root file, with their public items."""

    def __init__(self, name):
        self.name, self.root = name, root_of(name).read_text()
        self.about = [
            re.sub(r"^//! ?", "", it) for it in self.root.split("\n") if re.match(r"//!(?! \|)", it)
        ]
        exported, public = self.exported()
        files = {it.stem: it for it in sorted((CRATES / name / "src").glob("**/*.rt"))}
        order = [
            module
            for it in tabled(self.root)
            for module in [*(tabled(files[it].read_text()) if it in files else ()), it]
        ]
        order += [it for it in files if it not in order]
        modules = [Module(files[it], exported.get(it, set()), it in public) for it in order]
        self.modules = [*zip(modules, items(modules))]
        self.cited = [it for _, found in self.modules for item in found for it in item.all_cites()]
        heads = " ".join(item.title for _, found in self.modules for item in found)
        self.lost = {it for names in exported.values() for it in names} - {*re.findall(WORD, heads)}

    def exported(self):
        """The names that the root file exports of each module, and the modules that are public."""
        code, names = blanked(self.root), {}
        for first, module, listed in re.findall(
            r"pub use (\w+::)?(\w+)::(\{[^}]*\}|\w+);", code
        ):
            if f"mod {first[:-2] or module};" in code:
                names.setdefault(module, set()).update(re.findall(r"\w+", listed))
        return names, set(re.findall(r"pub mod (\w+);", code))

    def title(self):
        """What the crate is, in a sentence."""
        return " ".join("\n".join(self.about).split("\n\n")[0].split())

    def calls(self):
        return [it for _, found in self.modules for item in found for it in [item, *item.parts]]


def all_crates():
    """The crates of crates.txt in their order, less those of tests."""
    listed = re.findall(r"(?m)^(\w+):", (TOP / "crates.txt").read_text())
    return [Crate(it) for it in listed if it != "lab" and not it.endswith("_tests")]
