"""Derivations as files of a store folder, made apart from the program: what the measurements of
plans, books and runs read.

The text is that of the Nix manual, "Store Derivation"; the output path is that of its masked modulo
text, in which inputs with one hash are one entry.
"""

import hashlib
import subprocess
import time

from store_paths import make_path, text_path


SCRIPT = "echo hello > $out"


def entries(name, output):
    """The entries of the environment of a derivation with this output."""
    environment = {"builder": "/bin/sh", "name": name, "out": output, "system": "x86_64-linux"}
    return environment | {
        f"key{number:02}": f"the value of key {number}, which says little" for number in range(8)
    }


def derivation(name, output, inputs, script=SCRIPT, sources=(), content=("", "")):
    """The text of a derivation with one output, these inputs and sources, which runs a script;
    nothing in it takes an escape.

    A fixed output has a method and a hash as its content.
    """
    return (
        f'Derive([("out","{output}","{content[0]}","{content[1]}")],['
        + ",".join(f'("{name}",["out"])' for name in inputs)
        + "],["
        + ",".join(f'"{path}"' for path in sources)
        + f'],"x86_64-linux","/bin/sh",["-c","{script}"],['
        + ",".join(f'("{key}","{value}")' for key, value in sorted(entries(name, output).items()))
        + "])"
    )


def digest(text):
    """The SHA-256 of a text, in hexadecimal digits."""
    return hashlib.sha256(text.encode()).hexdigest()


def name_of(number):
    """The name of the derivation with this number."""
    return f"bench-{number}"


def output_of(folder, number, inputs, script=SCRIPT, sources=()):
    """The path of the output of the derivation with this number, whose inputs are paths with their
    modulo hashes."""
    name = name_of(number)
    hashes = sorted({modulo for _, modulo in inputs})
    return make_path(
        "output:out", digest(derivation(name, "", hashes, script, sources)), folder, name
    )


def made(folder, number, inputs, script=SCRIPT, sources=()):
    """The path, the text, the output's path and the modulo hash of the derivation with this number,
    whose inputs are paths with their modulo hashes."""
    name = name_of(number)
    output = output_of(folder, number, inputs, script, sources)
    paths = sorted(path for path, _ in inputs)
    hashes = sorted({modulo for _, modulo in inputs})
    text = derivation(name, output, paths, script, sources)
    path = text_path(folder, name + ".drv", text.encode(), sorted([*paths, *sources]))
    return path, text, output, digest(derivation(name, output, hashes, script, sources))


def write(folder, number, inputs, script=SCRIPT, sources=()):
    """Writes the derivation with this number, whose inputs are paths with their modulo hashes, and
    gives its own."""
    path, text, _, modulo = made(folder, number, inputs, script, sources)
    with open(path, "w", encoding="ascii") as file:
        file.write(text)
    return path, modulo


def write_fixed(folder, name, script, inputs, content):
    """Writes a derivation that has to make one file of this content, whose inputs are paths with
    their modulo hashes, and gives its own."""
    made = f"fixed:out:sha256:{hashlib.sha256(content).hexdigest()}:"
    output = make_path("output:out", digest(made), folder, name)
    paths = sorted(path for path, _ in inputs)
    text = derivation(
        name, output, paths, script, content=("sha256", hashlib.sha256(content).hexdigest())
    )
    path = text_path(folder, name + ".drv", text.encode(), paths)
    with open(path, "w", encoding="ascii") as file:
        file.write(text)
    return path, digest(made + output)


def chain(folder, count):
    """Writes a chain of so many derivations, and gives the path of the last alone."""
    last = []
    for number in range(count):
        last = [write(folder, number, last)]
    return [last[0][0]]


def digest_all(paths):
    """How many milliseconds `sha256sum` takes over the files, which it gets in as few calls as
    their names allow."""
    start = time.monotonic()
    subprocess.run(
        ["xargs", "-0", "sha256sum"],
        input="\0".join(paths).encode(),
        check=True,
        stdout=subprocess.DEVNULL,
    )
    return (time.monotonic() - start) * 1e3
