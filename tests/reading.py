"""Reads derivations and journals apart from the program, by docs/FORMATS.md alone."""

import re

from scenes import text_path

STRING = re.compile(rb'[^"\\\n\r\t]*(?:\\["\\nrt][^"\\\n\r\t]*)*')
BODY = re.compile(rb"[0-9abcdfghijklmnpqrsvwxyz]{32}-([A-Za-z0-9+\-._?=]{1,211})\Z")
SPELLED = {b'"': b'"', b"\\": b"\\", b"n": b"\n", b"r": b"\r", b"t": b"\t"}
LETTERS = {value: letter for letter, value in SPELLED.items()}
DIGITS = {b"md5": 32, b"sha1": 40, b"sha256": 64, b"sha512": 128}
FIELDS = {b"1": 1, b"2": 1, b"3": 2}  # after the path, in A and O lines, by versions
NAR = re.compile(rb"[0-9a-f]{64}:(0|[1-9][0-9]*)\Z")
MAX_DRV = 4194304
# The parts of a derivation: strings, tuples and lists, which rise but where None follows.
PARTS = [[(str, str, str, str)], [(str, [str])], [str], str, str, [str, None], [(str, str)]]
name_of = lambda path: path.rsplit(b"/", 1)[1][33:]


class Refused(Exception):
    """What is wrong, in the words of a line."""

    words = property(lambda self: self.args[0])


def is_path(folder, text):
    found = text.startswith(folder + b"/") and BODY.match(text[len(folder) + 1 :])
    return bool(found) and not re.match(rb"\.\.?(-|\Z)", found[1])


def spelling_of(value):
    """The string that spells some bytes."""
    spell = lambda found: b"\\" + LETTERS[found.group(0)]
    return b'"' + re.sub(rb'["\\\n\r\t]', spell, value) + b'"'


class Reader:
    """Reads a derivation from the left."""

    is_at = lambda self, byte: self.text[self.at : self.at + 1] == byte

    def __init__(self, text):
        self.text, self.at, self.disorder = text, 0, []

    def fixed(self, wanted):
        for byte in wanted:
            if not self.is_at(bytes([byte])):
                raise Refused(b"Syntax(%d)" % self.at)
            self.at += 1

    def string(self):
        self.fixed(b'"')
        begin, self.at = self.at, STRING.match(self.text, self.at).end()
        spelling = self.text[begin : self.at]
        if self.is_at(b"\\"):
            self.at += 1
            raise Refused(b"Syntax(%d)" % self.at)
        self.fixed(b'"')
        return re.sub(rb"\\(.)", lambda found: SPELLED[found[1]], spelling)

    def several(self, forms):
        """Values with commas between them."""
        values = []
        for form in forms:
            self.fixed(b"," if values else b"")
            values.append(self.value(form))
        return values

    def value(self, form):
        if form is str:
            return self.string()
        self.fixed(b"(" if isinstance(form, tuple) else b"[")
        values = self.several(form) if isinstance(form, tuple) else self.listed(*form)
        self.fixed(b")" if isinstance(form, tuple) else b"]")
        return values

    def listed(self, form, rises=True):
        """The elements of a list. Where one does not rise its place is kept."""
        values, keys = [], []
        while not self.is_at(b"]"):
            self.fixed(b"," if values else b"")
            place = self.at
            values.append(self.value(form))
            keys.append(values[-1] if form is str else values[-1][0])
            if rises and len(keys) > 1 and not keys[-2] < keys[-1]:
                self.disorder.append(place)
        return values

    def derivation(self):
        """The inputs' paths and the sources."""
        self.fixed(b"Derive(")
        _, inputs, sources, *_ = self.several(PARTS)
        self.fixed(b")")
        if self.at < len(self.text):
            raise Refused(b"Syntax(%d)" % self.at)
        if self.disorder:
            raise Refused(b"Order(%d)" % min(self.disorder))
        return [path for path, _ in inputs] + sources


def own_path(folder, name, text):
    """The own path of a derivation's text in a folder under a name; else what is wrong with it."""
    if len(text) > MAX_DRV:
        raise Refused(b"TooLong")
    paths = Reader(text).derivation()
    for path in paths:
        if not is_path(folder, path):
            raise Refused(b"BadReference(" + spelling_of(path) + b")")
    references = [path.decode() for path in sorted({*paths})]
    return text_path(folder.decode(), name.decode(), text, references).encode()


def check_words(folder, path, text):
    """What `check` has to say of a text at a path, and the text's own path where it has one."""
    try:
        own = own_path(folder, name_of(path), text)
    except Refused as refused:
        return refused.words, None
    return (b"" if own == path else b"TextPathMismatch(" + own + b")"), own


def row_of(folder, version, line):
    """The kind, path, digest and archive, as version 3 has them, of a line if it is well formed."""
    kind, *fields = line.split(b" ")
    has_digest = kind in (b"A", b"O")
    wanted = 1 + (FIELDS[version] if has_digest else 0)
    if kind not in (b"A", b"D", b"O", b"R") or len(fields) != wanted:
        return None
    path, digest, nar = [*fields, b"-", b"-"][:3]
    if version == b"1" and digest != b"-":
        digest = b"sha256:" + digest
    plain = digest.removeprefix(b"r:") if version == b"3" else digest
    name, colon, digits = plain.partition(b":")
    is_digest = colon and DIGITS.get(name) == len(digits) and re.fullmatch(b"[0-9a-f]*", digits)
    is_nar = NAR.match(nar) and int(nar[65:]) < 2**63
    known = (is_digest or digest == b"-") and (is_nar or nar == b"-")
    if not known or not is_path(folder, path):
        return None
    return (kind, path, digest, nar) if has_digest else (kind, path, None, None)


def may_follow(row, entry, after):
    """Whether a row may follow those of the last entry, before a line that stands after it."""
    kind, path, *_ = row
    if kind == b"D":
        name = name_of(path)
        return name.endswith(b".drv") and len(name) > 4 and after.startswith(b"O ")
    if kind == b"O":
        before = [it[1] for it in entry if it[0] == b"O"]
        return entry and entry[0][0] == b"D" and not (before and path <= before[-1])
    last = entry[-1] if entry else (b"D",)
    return kind == b"A" or last[0] != b"D" and not (last[0] == b"R" and path <= last[1])


def entries_of(folder, text):
    """The entries of a journal, each a list of rows; else what is wrong with it."""
    head = re.match(rb"realiser-journal (\d+)\n", text)
    if head and head[1] not in FIELDS:
        raise Refused(b"WrongVersion")
    if text and not head:
        raise Refused(b"BadLine(1)")
    entries, numbers, lines = [], {}, text.split(b"\n")
    for number, line in enumerate(lines[1:-1], 2):
        row = row_of(folder, head[1], line)
        if not row or not may_follow(row, entries[-1] if entries else [], lines[number]):
            raise Refused(b"BadLine(%d)" % number)
        if row[0] in (b"A", b"D"):
            entries.append([])
        entries[-1].append(row)
        numbers[len(entries), len(entries[-1])] = number
    if lines[-1]:
        raise Refused(b"BadLine(%d)" % len(lines))
    if faults := [*faults_of(entries, numbers)]:
        raise Refused(min(faults)[1])
    return entries


def faults_of(entries, numbers):
    """References that are not registered, and paths that are registered twice, by their lines."""
    valid = set()
    for place, entry in enumerate(entries, 1):
        own = {path for kind, path, *_ in entry if kind in (b"A", b"O")}
        for at, (kind, path, *_) in enumerate(entry, 1):
            number = numbers[place, at]
            if kind == b"R" and path not in valid | own:
                yield number, b"NotClosed(%d)" % number
            if kind in (b"A", b"O") and path in valid:
                yield number, b"Twice(%d)" % number
        valid |= own


def journal_of(folder, text):
    """A journal's text as it is written, in version 2 or, where needed, 3; and the valid paths."""
    rows = [row for entry in entries_of(folder, text) for row in entry]
    needs = any(row[3] not in (None, b"-") or (row[2] or b"").startswith(b"r:") for row in rows)
    fields = ([part for part in row[: 4 if needs else 3] if part is not None] for row in rows)
    lines = (b" ".join(parts) + b"\n" for parts in fields)
    valid = {path for kind, path, *_ in rows if kind in (b"A", b"O")}
    return b"realiser-journal %d\n" % (3 if needs else 2) + b"".join(lines), valid
