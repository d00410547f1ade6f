"""Reads files of rows: what is done in a store folder, and what has to come of it.

A row begins with `== NAME`, and a comment with `#`, also after a row's name. Each other line
begins a step, whose texts stand below it: `|` begins a line of a text, and `+` a piece of a line.
Before these marks stands the text's label, if the step has more than one text. A text of one line
may stand after its step, with its mark, and before that other steps, each with `; ` after it.
Lines right below the name of a row are calls by `lab`.

`=> ANSWER`, after a run or a call, or below it, is what it prints, with `; ` between lines;
`status N: FAULT` there is a run's fault. So the lines of a file may stand after `=>`.
`built <a> <b>` is a line for each path. Where no status is given it is 2 if `check` tells of
something bad, 1 if anything failed or is refused, and else 0. `$ check WORD..` is the program's
subcommand over the store folder.

Before the first row `text <WORD>` lets a word stand for a text, and `scene NAME <WORD>..` begins a
scene: the steps that a row takes by that name, with values of the words. There `<below>`, and each
label, stand for the texts below the name, and what these say of a run is said of the scene's. The
last word stands for all values that are left. All files have the texts and scenes of `words`, and
`use FOLDER..` has words, as `put` has, for the derivations in folders here. `for <WORD> in VALUES`
has each row taken once with each value: a word, or the numbers `1..9`; in a row it has that row
taken so. `for <A> <B> => <C>` does so with each line below it, which has values divided as the
words are. The last one before `=>` and at the end may have several words, and `\\n` in it ends a
line. Below `for <A> <B> in`, and below `for <WORD> in`, the lines are also divided by `; `.
"""

import collections
import copy
import re

from row_calls import LABELS, NUMBERS
from scenes import HERE, outputs_in

INLINE = re.compile(r"(.*?) ([|+])(?: (.*))?")
MARK = re.compile(r" (?:[|+]|=>)(?: |$)")
PIECE = re.compile(r"    ([a-z ]*)([|+])(?: (.*))?")
SETTING = re.compile(r"    ([a-z ]+) ([0-9]+)")
NUMBERED = re.compile(r"(?<!\S)(\d+)\.\.(\d+)(?!\S)")
WORD = re.compile(r"<([^<>.\s]+)(\.[^<>\s]+)?>")
# A fault that is told, lines of a report, one line that stands for several, and what is no success.
FAULT = re.compile(r"status (\d): (.*)")
REPORT = re.compile(r"(built|reused|failed|refused|build|reuse|refuse) ")
SEVERAL = re.compile(r"(\w+) (<\S+>(?: <\S+>)+)(: .*)?")
BAD, UNREALISED = re.compile(r"^bad ", re.M), re.compile(r"^(failed|refused?) ", re.M)
# What `plan` says in place of what `realise` does.
PLANNED = {"built ": "build ", "reused ": "reuse ", "refused ": "refuse "}
# The steps that have answers, the labels of these, and the lines that may have a list after `=>`.
RUNS, REPORTS = ("$", "await", "foretold"), ("by path", "out")
LISTED = re.compile(r"(\$|await|foretold) |((holds|write)-journal|(ends|holds|has-lines) \S+) => ")
SUBCOMMANDS = {"check", "add-text", "add-drv", "plan", "realise"}
# The kinds of step, and how many words may follow each; then what may stand before the first row.
KINDS = """
$ 1+ sh 0 start 3+ await 1 goes-on 1 kill 2 until 1 quickest 1 as-user 0 trace 2 lab 0+ put 1
script 1+ many 3+ note 0 unchanged 0 twins 1 text-path 2 output-path 2+ fixed-path 3 drv 2 order 2
repeat 3 digest 1 rising 1 write 1 fill 3 folder 1+ mode 2 link 3 move 3 pipe 1 remove 1+ holds 1
ends 1 has-lines 1 has-mode 2 is-link 1+ is-pipe 1+ is-file 1+ is-folder 1+ missing 1+ entries 1
for 1+
"""
STEPS = dict(zip(KINDS.split()[::2], KINDS.split()[1::2]))
FRONT = {"text": "1", "for": "1+", "scene": "1+", "use": "1+"}
# The texts and numbers that each kind of run may have.
GIVEN = {"in", "env", "tty", "before"}, {"room", "err room", "limit", "ignore", *NUMBERS}
TOLD = {"out", "err", "tty", "by path", "out like", "err like", "tty like"}, {"status"}
RUN = GIVEN[0] | TOLD[0] | {"too much", *LABELS}, GIVEN[1] | TOLD[1]
PARTS = {"$": RUN, "sh": (RUN[0] | {""}, RUN[1]), "start": GIVEN, "await": TOLD}


class Mistake(Exception):
    """A line of a file of rows that means nothing."""


class Step:
    """A step: the number of its line, its kind, the words after it, its texts and numbers."""

    def __init__(self, number, line):
        self.number, self.line, self.texts, self.numbers = number, line, {}, {}
        self.answers = []
        is_listed = LISTED.match(line)
        head, sign, answer = line.partition(" => ") if is_listed else (line, "", "")
        inline = None if is_listed else INLINE.fullmatch(line)
        self.kind, *words = (inline[1] if inline else head).split(" ")
        self.words = words
        if inline:
            self.put("", inline[2], inline[3] or "")
        if sign:
            self.answer(answer)
        place = {"$": 0, "start": 1}.get(self.kind, len(words))
        if SUBCOMMANDS.intersection(words[place : place + 1]):
            words[place : place + 1] = ["nix_realise", words[place], "--store-dir", "<dir>"]
        if self.kind == "ran":
            self.kind, self.texts[""], words = "has-lines", "\n".join([*words, ""]), ["ran"]
        elif self.kind == "twins" and words[1:]:
            words, self.texts = words[:1], dict(zip(words[1::2], words[2::2]))
        self.words = words

    def add(self, line):
        """Adds a line that stands below the step."""
        if line.startswith("    => "):
            self.answer(line[7:])
        elif piece := PIECE.fullmatch(line):
            label, mark, text = piece[1], piece[2], piece[3] or ""
            call, sign, answer = text.partition(" => ")
            is_call = self.kind == "lab" and not label
            self.put(label, mark, call if is_call else text)
            if is_call and sign:
                self.answer(answer)
        elif setting := SETTING.fullmatch(line):
            self.numbers[setting[1]] = int(setting[2])
        else:
            raise Mistake("it is no part of a step")

    def answer(self, text):
        """Adds what stands after the sign of an answer; that of a run is read by `read_answer`."""
        if self.kind in RUNS:
            self.answers.append(text)
        else:
            for line in text.split("; "):
                self.put("out" if self.kind == "lab" else "", "|", line)

    def read_answer(self, line):
        """Reads a line of the answer of a run."""
        if fault := FAULT.fullmatch(line):
            self.numbers["status"] = int(fault[1])
            self.put("err", "|", f"nix_realise: {fault[2]}")
        else:
            self.put("by path" if REPORT.match(line) else "out", "|", line)

    def put(self, label, mark, text):
        """Adds a line or a piece to the text with a label."""
        if self.kind == "lab" and label in ("", *self.words):
            text = text.replace("; ", "\n")
        elif self.kind in RUNS and label in REPORTS and (several := SEVERAL.fullmatch(text)):
            verb, paths, reason = several.groups("")
            text = "\n".join(f"{verb} {path}{reason}" for path in paths.split(" "))
        self.texts[label] = self.texts.get(label, "") + text + ("\n" if mark == "|" else "")

    def check(self, kinds):
        """Refuses a step that is none of these kinds, or that has other parts than it may have."""
        least = kinds.get(self.kind, "")
        more = len(self.words) - int(least.rstrip("+") or len(self.words) + 1)
        if more < 0 or more > 0 and not least.endswith("+"):
            raise Mistake("nothing is known of such a step")
        labels, (texts, numbers) = set(self.texts), PARTS.get(self.kind, ({""}, set()))
        if self.kind == "twins":
            is_known = len(labels) == 2 and "" not in labels
        else:
            is_known = self.kind == "lab" or labels <= texts
        if not is_known or not set(self.numbers) <= numbers:
            raise Mistake("below it stands what it may not have, or not what it must have")

    def given(self, call, values):
        """The same step where words stand for values, as a part of the step that calls it."""
        step = copy.copy(self)
        step.number, step.line = call.number, f"{call.line}: {self.line}"
        step.words = []
        for word in self.words:
            text = with_values(word, values)
            step.words += [text] if not word.endswith("*>") else text.split(" ") if text else []
        step.texts = {label: with_values(text, values) for label, text in self.texts.items()}
        step.answers = [with_values(text, values) for text in self.answers]
        if self.kind == "$":
            step.answers += call.answers
            step.texts |= {label: text for label, text in call.texts.items() if label in RUN[0]}
            step.numbers = {**self.numbers, **call.numbers}
        return step

    def settled(self, values):
        """The same step, where a run has its status, and `plan` says so what it forecasts."""
        if self.kind not in RUNS:
            return self
        step = copy.copy(self)
        step.texts, step.numbers = dict(self.texts), dict(self.numbers)
        for text in self.answers:
            while (valued := with_values(text, values)) != text:
                text = valued
            for line in text.removesuffix("\n").replace("; ", "\n").split("\n"):
                step.read_answer(line)
        report = step.texts.get("by path", "")
        told = report + step.texts.get("out", "")
        if "status" not in step.numbers:
            step.numbers["status"] = 2 if BAD.search(told) else int(bool(UNREALISED.search(told)))
        if report and step.words[1:2] == ["plan"]:
            plan = REPORT.sub(lambda found: PLANNED.get(found[0], found[0]), report)
            step.texts["by path"] = plan
        return step


def with_values(text, values):
    """A text in which words have their values. What follows a point in a word stays there."""

    def valued(found):
        value, more = values.get(found[1]), found[2]
        is_known = value is not None and (not more or WORD.fullmatch(value))
        return found[0] if not is_known else f"{value[:-1]}{more}>" if more else value

    return WORD.sub(valued, text)


class Row(collections.namedtuple("Row", "file name texts steps")):
    """A row: its file, its name, the words of the file with their texts, and its steps."""

    full_name = lambda self: f"{self.file.stem}::{self.name}"

    def is_named(self, name):
        """Whether it has this name, with that of its file or without, whatever its words are."""
        return any(f"{it}, ".startswith(f"{name}, ") for it in (self.name, self.full_name()))

    def settled(self):
        """The same row, whose runs have the answers that its words give."""
        values = {word.strip("<>"): text for word, text in self.texts.items()}
        return self._replace(steps=[step.settled(values) for step in self.steps])

    def looped(self, step):
        """The same row with each value of the words of a `for`."""
        word, *words = step.words
        below = step.texts.get("", "")
        if words[:1] == ["in"] and words[1:]:
            numbers = lambda ends: " ".join(map(str, range(int(ends[1]), int(ends[2]) + 1)))
            values = NUMBERED.sub(numbers, " ".join([*words[1:], below])).split()
            lines = [(f"{word} = {value}", {word: value}) for value in values]
        else:
            below = below.replace("; ", "\n") if words[-1:] == ["in"] else below
            lines = [(line, values_in(step, line)) for line in below.splitlines()]
        for name, values in lines:
            yield Row(self.file, f"{self.name}, {name}", {**self.texts, **values}, self.steps)


def values_in(step, line):
    """The values of words that a line of a table has."""
    words = " ".join(step.words).removesuffix(" in")
    heads = [head.split(" ") for head in words.split(" => ")]
    values = zip(heads, line.replace("\\n", "\n").split(" => ", len(heads) - 1))
    lists = [zip(words, part.split(" ", len(words) - 1)) for words, part in values]
    found = dict(pair for each in lists for pair in each)
    if len(found) < sum(map(len, heads)):
        raise Mistake(f"{step.line}: a line has other parts: {line}")
    return found


class Reading:
    """What was read of a file: what stands before the rows, the scenes and the rows by names."""

    def __init__(self, file, used=None):
        self.file, self.front, self.rows = file, [], {}
        self.texts, self.scenes = used.known() if used else ({}, {})
        self.steps, self.last = self.front, None

    def read(self, number, line):
        """Reads a line."""
        if line.startswith("    "):
            self.read_below(number, line)
        elif line.startswith("== "):
            name, self.steps, self.last = line[3:].split(" # ")[0], [], None
            if name in self.rows:
                raise Mistake("another row has this name")
            self.rows[name] = self.steps
        elif line and not line.startswith("#"):
            plain = MARK.split(line, maxsplit=1)[0]
            *first, last = plain.split("; ")
            for part in [*first, last + line[len(plain) :]]:
                self.read_step(number, part)

    def read_step(self, number, line):
        """Reads the first line of a step."""
        self.last = Step(number, line)
        self.steps = self.front if self.last.kind in FRONT and not self.rows else self.steps
        self.steps.append(self.last)
        if self.last.kind == "use":
            for folder in self.last.words:
                self.texts = {**self.texts, **paths_in(HERE / folder)}
        elif self.last.kind == "scene":
            name, *words = self.last.words
            self.steps = []
            self.scenes[name] = [word.strip("<>") for word in words], self.steps

    def read_below(self, number, line):
        """Reads a line below a step, or a call below the name of a row; texts of calls by lines."""
        if self.last is None:
            self.last = Step(number, "lab")
            self.steps.append(self.last)
        is_word = self.last.kind == "lab" and line.startswith("    + <")
        text = self.known()[0].get(line[6:]) if is_word else None
        for each in [f"    | {it}" for it in text.splitlines()] if text else [line]:
            self.last.add(each)

    def known(self):
        """The texts of words that stand before the rows, and the scenes."""
        own = {it.words[0]: it.texts.get("", "") for it in self.front if it.kind == "text"}
        return {**self.texts, **own}, self.scenes

    def check(self, step, kinds):
        """Refuses a step that means nothing."""
        if step.kind not in self.scenes or kinds is FRONT:
            return step.check(kinds)
        words, inner = self.scenes[step.kind]
        texts = " ".join(text for it in inner for text in [*it.words, *it.texts.values()])
        labels = {label for label in step.texts if f"<{label or 'below'}>" not in texts}
        is_run = any(it.kind in ("$", *self.scenes) for it in inner)
        is_short = len(step.words) < sum(word[-1] != "*" for word in words)
        if is_short or labels - RUN[0] or (labels or step.answers or step.numbers) and not is_run:
            raise Mistake("the scene has other words, or below it stands what it has not")

    def check_all(self):
        """Refuses the first step that means nothing."""
        front = [(step, FRONT) for step in self.front]
        bodies = [*self.rows.values(), *(steps for _, steps in self.scenes.values())]
        for step, kinds in front + [(step, STEPS) for steps in bodies for step in steps]:
            try:
                self.check(step, kinds)
            except Mistake as mistake:
                raise Mistake(f"{self.file}:{step.number}: {mistake}: {step.line}") from None

    def expanded(self, steps):
        """These steps, with those of scenes in place of their names."""
        for step in steps:
            if step.kind in self.scenes:
                words, inner = self.scenes[step.kind]
                last = max(len(words) - 1, 0)
                given = dict(zip(words, [*step.words[:last], " ".join(step.words[last:])]))
                values = {**step.texts, "below": step.texts.get("", ""), **given}
                yield from self.expanded([it.given(step, values) for it in inner])
            else:
                yield step

    def given(self):
        """The rows, each with each value of the words that have several."""
        rows = []
        for name, steps in self.rows.items():
            inner = list(self.expanded(step for step in steps if step.kind != "for"))
            found = [Row(self.file, name, self.known()[0], inner)]
            for loop in (step for step in [*self.front, *steps] if step.kind == "for"):
                found = [each for row in found for each in row.looped(loop)]
            rows += [row.settled() for row in found]
        return rows


def paths_in(folder):
    """The words of the derivations in a folder of the tests, with their paths and those of their
    outputs, and that of the folder, with all their files."""
    files = sorted(folder.iterdir())
    texts = {f"<{folder.name}>": " ".join(f"{folder.name}/{file.name}" for file in files)}
    for file in files:
        name = re.match(r".{33}([a-z]+(?:-[a-z]+)*)", file.name)[1]
        outputs = outputs_in(file.read_text()).items()
        texts |= {f"<{name}>": f"/nix/store/{file.name}"}
        texts |= {f"<{name}.{output}>": path for output, path in outputs}
    return texts


def reading_of(file, used=None):
    """What was read of a file, to which the texts and scenes of another one are known."""
    reading = Reading(file, used)
    for number, line in enumerate(file.read_text(encoding="utf-8").splitlines(), 1):
        try:
            reading.read(number, line)
        except Mistake as mistake:
            raise Mistake(f"{file}:{number}: {mistake}: {line}") from None
    reading.check_all()
    return reading


# The rows of a file.
rows_of = lambda file: reading_of(file, reading_of(file.with_name("words"))).given()
