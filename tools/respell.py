#!/usr/bin/env python3
"""Gives the definitions and lemmas of specs/ and proofs/ the spelling of today's Rattle: words in snake case, types in
upper camel case, and `_lem` on a lemma that would have its function's name. tools/respelled.txt has a line for each
name: the old one and the new one. Run it once, at the top, after port.py. Edits of must-fail/ are turned too."""
import glob
import re

NAMES = dict(line.split() for line in open("tools/respelled.txt"))
# Lemmas that the kit's script had already turned, and that would now have their function's name.
THERE = {
    "crates/laws/proofs/": {"goes_on": "goes_on_lem"},
    "crates/image/proofs/": {"is_live": "is_live_lem"},
}
# A whole name, that is no part of a longer one.
TOKEN = re.compile(r"[A-Za-z_][\w'\-]*(?:◌[\w'\-]*)*")
# Names that Rattle makes from the code.
MADE = ("c.", "goal.", "w.", "l.", "g.")


def turn(line, names, answers):
    def one(found):
        name = found.group(0)
        if answers and line[: found.start()].endswith(MADE):
            return name
        return names.get(name, name)

    return TOKEN.sub(one, line)


def turn_code(line, names):
    """A line of antt or Rust: the comment keeps its words, but for names in camel case; strings stay."""
    cut = re.search(r"(^|\s)(--|//) ", line)
    code, said = (line[: cut.start()], line[cut.start() :]) if cut else (line, "")
    said = re.sub(r"\b[a-z]+(?:[A-Z][a-z]*)+\b", lambda m: names.get(m.group(0), m.group(0)), said)
    return code, said


def turn_file(path, names, answers, strings):
    out = []
    for line in open(path):
        code, said = turn_code(line, names)
        parts = re.split(r'("(?:[^"\\\n]|\\.)*")', code) if strings else [code]
        parts = [p if p.startswith('"') and strings else turn(p, names, answers) for p in parts]
        out.append("".join(parts) + said)
    open(path, "w").write("".join(out))


for folder in ("specs", "proofs"):
    for path in sorted(glob.glob(f"crates/*/{folder}/**/*.antt", recursive=True)):
        names = dict(NAMES)
        for start, more in THERE.items():
            if path.startswith(start):
                names.update(more)
        last = path.rsplit("/", 1)[1]
        turn_file(path, names, last in ("Answers.antt", "Invariants.antt"), False)
for path in sorted(glob.glob("crates/*/src/**/*.rt", recursive=True)):
    camel = {a: b for a, b in NAMES.items() if "-" in a or a != a.lower()}
    turn_file(path, camel, False, True)
for path in sorted(glob.glob("crates/*/must-fail/*.edit")):
    lines = open(path).read().split("\n")
    lines = [turn(l, NAMES, False) if l.startswith(("old: ", "new: ")) else l for l in lines]
    open(path, "w").write("\n".join(lines))
