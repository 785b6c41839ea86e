#!/usr/bin/env python3
"""Turns this repository's own definitions and lemmas to snake case, once, after the kit's port.py.

usage: tools/respell.py        at the top of the repository

Turned is every name with a small first letter that a file of specs/, or one of proofs/ outside a function's own folder, declares:
firstHigh and first-low become first_high and first_low. Types, modules, what Rattle's sources name and what Rattle itself names stay.
Where two names would fall together, OTHERWISE names one of them. Must-fail edits follow, and names in `..` of the pages. Names that
were turned once are not turned again: the script stops.
"""

import os
import re
import sys

# A lemma that would have the name of a definition gets _lem; a field that would hide one says more.
OTHERWISE = {
    "first-high": "first_is_high",
    "as-init": "reads_as_init",
    "no-frame": "frame_is_gone",
    "no-pulse": "says_no_pulse",
    "packet-at": "packet_found",
    "some_below": "some_below_lem",
    "by_value": "by_value_lem",
    "goes_on": "goes_on_lem",
    "by_state": "by_state_lem",
    "each_below": "each_below_lem",
}
LEMMAS = """good-partial good-tests good-pulse of-paper no-error over-limit frame-size over-at over-limits init-number in-stretch all-good
pulse-in no-list if-running if-resting keeps-modules used-in in-front good-core found-by over-number once-around records-after all-below
number-of is-zero in-range by-ident"""
OTHERWISE |= {name: name.replace("-", "_") + "_lem" for name in LEMMAS.split()}

# Parameters that a reader of specs/ meets.
PARAMETERS = {"whenIdle", "whenRunning", "whenTripped", "answerTo"}

DECLARED = re.compile(r"^\s*(?:(?:abbrev|unfoldable|opaque|pub)\s+)*([^\s:(){}.,;]+)\s*(?:\{[^{}]*\}\s*)?:(?!=)(?:\s|$)")
TOKEN = re.compile(r"[^\s(){}\[\],;.\"`:@]+")
CAMEL = re.compile(r"[a-z0-9][A-Z]")


def files(top, folder, endings):
    for at, dirs, names in os.walk(os.path.join(top, folder)):
        dirs[:] = sorted(d for d in dirs if d not in ("out", "target", ".git"))
        for name in sorted(names):
            if name.endswith(endings):
                yield os.path.join(at, name)


def read(path):
    with open(path, encoding="utf-8") as f:
        return f.read()


def write(path, was, text):
    if text != was:
        with open(path, "w", encoding="utf-8") as f:
            f.write(text)


def snake(name):
    if name in OTHERWISE:
        return OTHERWISE[name]
    return re.sub(r"(?<=[a-z0-9])(?=[A-Z])", "_", name).replace("-", "_").lower()


def is_shared(path):
    """Whether a file of specs/ or proofs/ lies outside the functions' own folders."""
    folder, name = os.path.split(path)
    return os.path.basename(folder) in ("specs", "proofs") or name not in ("Proof.antt", "Answers.antt", "Invariants.antt")


def declared(top):
    """The names with a small first letter that shared files of specs/ and proofs/ declare."""
    found = set()
    for path in files(top, "crates", ".antt"):
        if is_shared(path):
            for line in read(path).split("\n"):
                m = DECLARED.match(line)
                if m and m.group(1)[0].isascii() and m.group(1)[0].islower():
                    found.add(m.group(1))
    return found


def turned(text, new):
    return TOKEN.sub(lambda m: new.get(m.group(0), m.group(0)), text)


def turned_code(text, new, mark):
    """The text with its names turned; of its remarks those alone that are plainly names."""
    in_remarks = {old: name for old, name in new.items() if CAMEL.search(old)}
    lines = []
    for line in text.split("\n"):
        at = line.find(mark)
        at = len(line) if at < 0 else at
        lines.append(turned(line[:at], new) + turned(line[at:], in_remarks))
    return "\n".join(lines)


def main():
    top = os.path.join(os.path.dirname(os.path.realpath(__file__)), "..")
    old = declared(top) | PARAMETERS
    if "all_below_lem" in old:
        sys.exit("respell: the names here are turned already")
    new = {name: snake(name) for name in old if snake(name) != name}
    for path in files(top, "crates", (".rt", ".antt")):
        text = read(path)
        write(path, text, turned_code(text, new, "//" if path.endswith(".rt") else "--"))

    # edits and pages also have names that port.py turned
    known = {new.get(name, name) for name in old}
    follow = lambda m: snake(m.group(0)) if m.group(0)[0].islower() and snake(m.group(0)) in known else m.group(0)
    for path in files(top, "crates", ".edit"):
        text = read(path)
        lines = [TOKEN.sub(follow, line) if line.startswith(("old: ", "new: ")) else line for line in text.split("\n")]
        write(path, text, "\n".join(lines))
    for path in [os.path.join(top, "README.md"), *files(top, "docs", ".md")]:
        text = read(path)
        write(path, text, re.sub(r"(?<=`)[^`\s]+(?=`)", lambda m: TOKEN.sub(follow, m.group(0)), text))


if __name__ == "__main__":
    main()
