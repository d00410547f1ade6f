"""What can be wrong with the documents, beside the texts that `make` writes: each check gives the
faults that it finds."""

import functools
import re

from items import anchor
from sources import CRATES, TOP, WORD, Definitions, body_lines, functions_of, taken

# A row of the table of what is trusted by reading: its module, and the cell of its functions.
TRUSTED = re.compile(r"(?m)^\| `([a-z_]+)::(?:[a-z_]+::)?([a-z_]+)` \| (`[^|]*) \|")

# A function in that cell, and its lines: all of its body, or so many of these.
TRUSTED_FUNCTION = re.compile(r"`([\w:]+)`(?: (?:(\d+) of )?\d+)?")

# The most words that all documents have, but for those that `make` writes whole.
MOST_WORDS = 35_000

# How a body reaches the system by itself: by a function of these modules and types of std, or by
# one of these methods of a handle, of what a handle opened, of a lock or of a condition. `read` and
# `write_all` are left out: what they move, a clause can say.
REACHES = re.compile(
    r"\b(?:fs|env|net|thread|File|Instant|SystemTime)::\w+\(|\bio::(?:writer|stdin|stdout|stderr)\("
    r"|\.(?:wait|wait_timeout|notify_one|notify_all|try_lock|spawn|scope|monotonic|elapsed|forever"
    r"|open_dir|read_to_end|flush|sync_all|set_permissions|try_clone|stderr|is_terminal)\("
    r"|\.lock\(\w*\)"
)

# A body that only stores what it is given, beside new cells of memory.
STORES = re.compile(r"\s*[A-Z]\w*\s*\{(?:[^{};()]|(?:Cell|Mutex|Condvar)::new\(\w*\))*\}\s*")


def undocumented(crates):
    """The types and functions that are not found or have no documentation, and the definitions that
    are not where they are cited from."""
    for crate in crates:
        yield from (f"{crate.name}: {it} is exported and not found" for it in sorted(crate.lost))
        for item in crate.calls():
            if not item.doc and not item.is_short and not item.text.startswith("impl "):
                yield f"{crate.name}: {item.title} has no documentation"
    for owner, file, name in sorted({it for crate in crates for it in crate.cited}):
        if Definitions(owner, file).place(name) is None:
            yield f"{owner}/specs/{file}.antt does not define {name}"


def listed(crates):
    """What is wrong with the table of files in DEFINITIONS.md: a file on which public contracts rest
    and that it lacks, or its order."""
    row = r"(?m)^\[`[^`]*`\]\(\.\./crates/(\w+)/specs/([\w/]+)\.antt\) \|"
    order = re.findall(row, (TOP / "docs/DEFINITIONS.md").read_text())
    for crate, file in sorted(relied_on(crates) - {*order}):
        yield f"DEFINITIONS.md does not list {crate}/specs/{file}.antt"
    places = {it: order.index(it) for it in order}
    for crate, file in places:
        path = CRATES / crate / "specs" / f"{file}.antt"
        for _, *used in taken(path.read_text() if path.exists() else "", "use"):
            if places.get(tuple(used[:2]), 0) > places[crate, file]:
                yield f"DEFINITIONS.md: {crate}/specs/{file}.antt stands before {used[1]}.antt, on which it rests"


def relied_on(crates):
    """The files of specs/ that public contracts cite, and those on which these rest: crate and
    file."""
    found, left = set(), [it[:2] for crate in crates for it in crate.cited]
    while left:
        crate, file = left.pop()
        if (crate, file) not in found:
            found.add((crate, file))
            text = (CRATES / crate / "specs" / f"{file}.antt").read_text()
            left += [tuple(used[:2]) for _, *used in taken(text, "use")]
    return found


def in_wrong_folder(crates):
    """The files that stand in the wrong folder: specs/ has those that a user of the crate relies
    on, and specs/private/ the others."""
    public = relied_on(crates)
    for folder, is_public in (("", True), ("private/", False)):
        for path in sorted(CRATES.glob(f"*/specs/{folder}*.antt")):
            crate = path.relative_to(CRATES).parts[0]
            if (
                path.stem not in ("Lib", "private")
                and ((crate, folder + path.stem) in public) != is_public
            ):
                yield f"{path.relative_to(TOP)} stands in the wrong folder"


def misplaced():
    """The definitions that GLOSSARY.md names and that are not in the file to which it leads. That the
    file is there is seen by the links."""
    link = r"\[`([\w']+)`\]\(\.\./crates/(\w+)/specs/([\w/]+)\.antt\)"
    for name, crate, file in re.findall(link, (TOP / "docs/GLOSSARY.md").read_text()):
        path = CRATES / crate / "specs" / f"{file}.antt"
        text = re.sub(r"--[^\n]*", "", path.read_text()) if path.exists() else name
        if not re.search(rf"(?<![\w'])pub (?:record |data )?{name}(?![\w'])", text):
            yield f"GLOSSARY.md: {path.relative_to(TOP)} does not define {name}"


def trusted():
    """The functions that PROVED.md says are trusted by reading: crate, module and name."""
    for row in TRUSTED.finditer((TOP / "docs/PROVED.md").read_text()):
        for found in TRUSTED_FUNCTION.finditer(row[3]):
            yield row[1], row[2], found[1]


def lost():
    """The functions of that list that are not there."""
    for place in trusted():
        try:
            body_lines(*place)
        except LookupError as error:
            yield f"PROVED.md: {error}"


def program_crates():
    """The crates of which the program is made, by crates.txt."""
    rests = dict(re.findall(r"(?m)^(\w+): (.*)$", (TOP / "crates.txt").read_text()))
    found, left = set(), ["nix_realise"]
    while left:
        crate = left.pop()
        if crate in rests and crate not in found:
            found.add(crate)
            left += rests[crate].split()
    return sorted(found)


def unlisted():
    """The functions of the program that have to be trusted by reading, and that PROVED.md does not
    list: those that reach the system by themselves, since no clause says what it did; and those of
    which no clause speaks, neither one of their own nor one of their trait, unless they do nothing
    or only store what they are given. The traits of std have ghost members in place of clauses."""
    functions = [it for crate in program_crates() for it in functions_of(crate)]
    silent = {it.name for it in functions if not it.has_body and not it.has_clause}
    known = {*trusted()}
    for it in functions:
        method = f"{it.of.partition('<')[0]}::{it.name.rpartition('::')[2]}"
        is_bound = it.has_clause or (it.of and method not in silent)
        does_more = it.body.strip() and not STORES.fullmatch(it.body)
        if it.has_body and (REACHES.search(it.body) or (does_more and not is_bound)):
            if (it.crate, it.module, it.name) not in known:
                yield f"PROVED.md does not list {it.crate}::{it.module} {it.name}, which no clause binds"


def made_up():
    """The functions of which PROVED.md says what they could make up, and the tests that it and
    SECURITY.md name, that are not there."""
    proved, secure = ((TOP / f"docs/{it}.md").read_text() for it in ("PROVED", "SECURITY"))
    table = proved.split("| Function | What it could make up | Test |")[1].split("\n\n")[0]
    lines = [line.split("|") for line in table.splitlines()[2:]]
    found = (it for crate in program_crates() for it in functions_of(crate))
    known = {it.name.rpartition("::")[2] for it in found}
    for name in re.findall(r"`(\w+)`", " ".join(line[1] for line in lines)):
        if name not in known:
            yield f"PROVED.md: no function has the name {name}"
    rows = "\n".join(path.read_text() for path in sorted((TOP / "tests/rows").glob("*.rows")))
    known = {*re.findall(r"(?m)^== (\S+)", rows), *(it.name for it in (TOP / "tests").iterdir())}
    named = [line[3] for line in lines] + re.findall(r"\bTests?: ([^.]*)\.", secure)
    for name in re.findall(r"`(?:tests/)?([\w-]+)`", " ".join(named)):
        if name not in known:
            yield f"PROVED.md or SECURITY.md: no test has the name {name}"


def unnamed():
    """The laws that PROVED.md does not name."""
    text = (TOP / "docs/PROVED.md").read_text()
    for it in (it for crate in program_crates() for it in functions_of(crate)):
        if it.module.endswith("laws") and f"`{it.name}`" not in text:
            yield f"PROVED.md does not name the law {it.crate}::{it.module}::{it.name}"


def wordy():
    """Whether the documents have too many words; those of docs/calls/ are made whole."""
    paths = [*TOP.glob("*.md"), *TOP.glob("*/*.md")]
    words = sum(len(it.read_text().split()) for it in paths)
    if words > MOST_WORDS:
        yield f"the documents have {words:,} words, and may have {MOST_WORDS:,}"


@functools.cache
def anchors(path):
    """The places in a document that a link can name, as often as they stand there."""
    return [
        anchor(it)
        for it in re.findall(r"(?m)^#+ (.*)$", re.sub(r"(?ms)^```.*?^```", "", path.read_text()))
    ]


@functools.cache
def is_there(path):
    return path.exists()


def broken_links():
    """The links of documents that lead nowhere, or to one of several headings."""
    for path in [
        *TOP.glob("*.md"),
        *TOP.glob("docs/*.md"),
        *TOP.glob("docs/calls/*.md"),
        *TOP.glob("*/README.md"),
    ]:
        for link in {*re.findall(r"\]\((?!https?:)([^)\s]*)\)", path.read_text())}:
            file, _, place = link.partition("#")
            to = path.parent / file if file else path
            count = anchors(to.resolve()).count(place) if place and is_there(to) else 1
            if not is_there(to):
                yield f"{path.relative_to(TOP)}: there is no {link}"
            elif count != 1:
                yield f"{path.relative_to(TOP)}: there are {count} headings for {link}"
