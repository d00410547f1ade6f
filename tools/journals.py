"""What a journal says of its paths. docs/FORMATS.md, "The journal", has the form."""

import re
from typing import NamedTuple

# The first line of each version, and how many fields there are after A and O.
FIELDS = {"realiser-journal 1": 2, "realiser-journal 2": 2, "realiser-journal 3": 3}
NAR = re.compile(r"-|[0-9a-f]{64}:[0-9]+")


class Unread(Exception):
    """Why a journal cannot be read."""


class Record(NamedTuple):
    """What is known of a valid path: the path of the derivation that it is an output of, or an
    empty text; `HASH:LENGTH` of its NAR, or `-`; and the paths that it refers to, sorted."""

    deriver: str
    nar: str
    references: list


def row_of(line, count):
    """The letter of a line, its path, and what it says of a NAR. A and O have so many fields."""
    kind, *fields = line.split(" ")
    nar = fields[2] if len(fields) == 3 else "-"
    if len(fields) != {"A": count, "O": count, "D": 1, "R": 1}.get(kind) or not NAR.fullmatch(nar):
        raise ValueError(f"{line!r} is no line of this version")
    return kind, fields[0], nar


def records_of(text):
    """The record of each path that a journal's text registers, by path."""
    head, *lines = text.split("\n") if text else ["realiser-journal 3", ""]
    if head not in FIELDS or lines[-1:] != [""]:
        raise ValueError("it is of no version that is known here, or its last line is cut")
    records, last, deriver = {}, Record("", "-", []), ""
    for line in lines[:-1]:
        kind, path, nar = row_of(line, FIELDS[head])
        if kind in ("A", "D"):
            deriver = path if kind == "D" else ""
        if kind in ("A", "O"):
            last = records[path] = Record(deriver, nar, [])
        elif kind == "R":
            last.references.append(path)
    return records


def read(name):
    """The record of each valid path of a journal, by path, in the order of the file.

    The journal is one that `nix_realise` accepts. Of any other text no more is seen than another
    version, a line of another form, and a last line that is cut.
    """
    try:
        with open(name, encoding="ascii", newline="\n") as file:
            return records_of(file.read())
    except (OSError, ValueError) as error:
        why = getattr(error, "strerror", None) or error
        raise Unread(f"{name} cannot be read: {why}") from error
