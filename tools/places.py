"""Lists the places that docs/DESIGN-PASS.md counts, point by point. Run at the top of the repository.

A line found is a place only if the page names it so: the patterns find a little more than they should.
"""

import collections
import pathlib
import re

PATTERNS = {
    "1a enums": r"\benum [A-Z]",
    "1b answers that are small numbers": r"-> \(?u8\b",
    "1c numbers of kinds and marks": r"^ +\d+ (=>|if )|=> \(\d, |^ +(pub )?flags: |\.flags\b|fn (fate_number|check_read)",
    "1d a number that stands for none": r"0 stands for|, or (0|how many|one that)|said by 0|0 where it|until: u64,$|duration: u32,$",
    "2 twins": r"fn (u\d+_at|(release_)?(debit|credit)(_at)?|(account|reservation)(_at|_place)?|(move|release)_between"
    r"|put_(account|sums)|order|linked|transfer|reserve|ask_[a-z]+|opening|count|move_to)\b"
    r"|struct (Queue|Report|Roll|RefusedLeg|Statement|Sums|Floor|Ceiling)\b",
    "3 loops that count": r"for _?[a-z]+ in .*\.\.|^ +while |for \(.*enumerate|^ +\.enumerate",
    "4 by hand": r"impl .*(Display|From|Key|Numbered|PartialEq|Ord)\b.* for|fn (number|new|parse|is_before|fate_number)\("
    r"|=> (Answer|Told)::",
    "6 buffers with a length beside, and searches": r"\b(row|accounts|reservations|undo|table|memory): (&.*)?\["
    r"|\b(len|opened|reserved|legs|count|at): usize\b",
    "7 switches": r"(Step|Ask)::[A-Z][a-z]+|\bdyn |\bFn(Once|Mut)?\(",
}


def sources():
    for path in sorted(pathlib.Path("crates").glob("*/src/**/*.rt")):
        yield path, path.read_text()


def found(pattern):
    for path, text in sources():
        for number, line in enumerate(text.splitlines(), 1):
            if re.search(pattern, line):
                yield f"{path}:{number}: {line.strip()}"


def clauses():
    count = collections.Counter()
    for _, text in sources():
        count.update(re.findall(r"^ *(?:ensures|requires)(?: \w+)? \{ (.*) \}$", text, re.M))
    return [f"{n} functions: {clause}" for clause, n in count.most_common() if n > 2]


def long_lists():
    for path, text in sources():
        for name, listed in re.findall(r"\bfn (\w+)(?:<[^>]*>)?\(([^)]*)\)", text):
            names = re.findall(r"(\w+): ", listed)
            if len(names) > 3:
                yield f"{path}: {name}({', '.join(names)})"


def proofs():
    files = list(pathlib.Path("crates").glob("*/proofs/**/*.antt"))
    lines = sum(len(path.read_text().splitlines()) for path in files)
    return [f"{len(files)} files, {sum(path.name == 'Answers.antt' for path in files)} of answers, {lines} lines"]


def show(title, lines):
    lines = list(lines)
    print(f"== {title}: {len(lines)}", *lines, sep="\n")


for title, pattern in PATTERNS.items():
    show(title, found(pattern))
show("5a clauses that three or more functions have", clauses())
show("5b functions of four parameters or more", long_lists())
show("8 proofs", proofs())
