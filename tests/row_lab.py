"""Takes the step `lab` of a row: calls of the libraries, by the program `crates/lab`.

Each text with a label is kept under that name first; after `lab` stand the labels of journals, of
which the first line is left out, after their version, if that isn't 2. The lines of the text
without a label are given to the program, and what it prints is compared with `out`, but for the
lines that say where a call begins and ends. The program runs in the folder of the tests, and
`<xff>` stands for a byte of all ones.
"""

import re

from scenes import HERE, expect, lab_program, run, told

MOST_SECONDS = 60  # The seconds that the program may take.
MARK = re.compile(r"(begins|ends) \d+ .*\n")  # A line that says where a call begins or ends.
bytes_of = lambda text: text.encode(errors="surrogateescape")  # The bytes of a text.


def script_of(scene, step):
    """The lines that a step gives to the program."""
    kept = {label: scene.text(step, label) for label in step.texts if label not in ("", "out")}
    labels = scene.words(step.words)
    version = labels.pop(0) if labels and labels[0].isdigit() else "2"
    kept |= {it: f"realiser-journal {version}\n{kept.get(it, '')}" for it in labels}
    texts = [f"{label} = bytes {bytes_of(text).hex()}\n" for label, text in kept.items()]
    return "".join(texts) + scene.text(step)


def answers_of(script):
    """What the program prints of these lines, without the marks, and its status."""
    status, out, err = run([lab_program()], MOST_SECONDS, input=bytes_of(script), cwd=HERE)
    return MARK.sub("", out), err, status


def take_lab(scene, step):
    """Gives the lines of a step to the program, and compares its answers."""
    expect(told(scene.text(step, "out"), "", 0), told(*answers_of(script_of(scene, step))))
