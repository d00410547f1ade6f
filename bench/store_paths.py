"""Store paths, computed apart from the program: what the measurements and their inputs are made
with.

Base-32 and the text path are those of the Nix manual, "Store Path" and "Complete Store Path
Calculation".
"""

import hashlib

ALPHABET = "0123456789abcdfghijklmnpqrsvwxyz"


def base32(data):
    """The base-32 text of some bytes: one number, byte i weighing 256^i, most significant digit
    first."""
    number = int.from_bytes(data, "little")
    length = (8 * len(data) + 4) // 5
    return "".join(ALPHABET[(number >> (5 * i)) & 31] for i in reversed(range(length)))


def fold(digest):
    """A digest folded to 20 bytes: byte i is joined by XOR onto byte i mod 20."""
    folded = bytearray(20)
    for i, byte in enumerate(digest):
        folded[i % 20] ^= byte
    return bytes(folded)


def make_path(kind, inner_hex, folder, name):
    """The store path of a type, an inner digest, a folder and a name."""
    fingerprint = f"{kind}:sha256:{inner_hex}:{folder}:{name}".encode()
    return f"{folder}/{base32(fold(hashlib.sha256(fingerprint).digest()))}-{name}"


def text_path(folder, name, data, references=()):
    """The path of a text with these references."""
    kind = "text" + "".join(":" + path for path in sorted(references))
    return make_path(kind, hashlib.sha256(data).hexdigest(), folder, name)
