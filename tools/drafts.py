"""Drafts of derivations from a few words, and what a filled derivation says. docs/FORMATS.md has
the form."""

import ast
from typing import NamedTuple


class Source(NamedTuple):
    """A file that `add-text` put into the store."""

    path: str


class Output(NamedTuple):
    """An output of a derivation that `add-drv` wrote."""

    drv: str
    name: str
    path: str


class Derivation(NamedTuple):
    """The seven parts of a derivation's text, in their order."""

    outputs: list
    inputs: list
    sources: list
    system: str
    builder: str
    arguments: list
    environment: list


def quoted(text):
    """A string of the form: quotes, backslashes, newlines, returns and tabs are escaped, nothing
    else."""
    for plain, spelled in (
        ("\\", "\\\\"),
        ('"', '\\"'),
        ("\n", "\\n"),
        ("\r", "\\r"),
        ("\t", "\\t"),
    ):
        text = text.replace(plain, spelled)
    return f'"{text}"'


def listed(items):
    """A list of the form, of items that are spelled already."""
    return "[" + ",".join(items) + "]"


def draft(script, outputs, variables):
    """The text of a draft: /bin/sh runs the script, stops at its first failure, and finds the
    variables in its environment.

    A variable's value is a text, a Source or an Output; of the last two the script sees the path,
    and the draft gets a source or an input derivation. Each output is a variable too. Its path is
    left out here and there, for `add-drv` to fill in. Every list is sorted, but for the arguments.
    """
    used = {}
    for value in variables.values():
        if isinstance(value, Output):
            used.setdefault(value.drv, set()).add(value.name)
    sources = {value.path for value in variables.values() if isinstance(value, Source)}
    environment = {
        key: getattr(value, "path", value) for key, value in variables.items()
    } | dict.fromkeys(outputs, "")
    parts = Derivation(
        outputs=listed(f'({quoted(name)},"","","")' for name in sorted(outputs)),
        inputs=listed(
            f"({quoted(drv)},{listed(map(quoted, sorted(used[drv])))})" for drv in sorted(used)
        ),
        sources=listed(map(quoted, sorted(sources))),
        system=quoted("x86_64-linux"),
        builder=quoted("/bin/sh"),
        arguments=listed(map(quoted, ["-euc", script])),
        environment=listed(
            f"({quoted(key)},{quoted(environment[key])})" for key in sorted(environment)
        ),
    )
    return "Derive(" + ",".join(parts) + ")"


def read(drv):
    """The parts of the derivation at a path. After the first word its text is one that Python
    reads, too."""
    with open(drv, encoding="utf-8", newline="") as file:
        return Derivation(*ast.literal_eval(file.read().removeprefix("Derive")))


def outputs_of(drv):
    """The outputs of the derivation at a path, by name."""
    return {name: Output(drv, name, path) for name, path, _, _ in read(drv).outputs}
