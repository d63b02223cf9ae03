#!/usr/bin/env python3
"""Plants bugs one at a time in the functions of a crate, and prints which of them the prover refuses.

    tools/plants.py CRATE [--most N] [--jobs J] [--seed S]

Run it at the top of the repository, where `rt check` has passed. Each bug changes a line or two; only the function that
holds it is checked, in a scratch copy. docs/PLANTED.md says what the rows mean.
"""

import argparse
import collections
import concurrent.futures
import os
import pathlib
import random
import re
import shutil
import subprocess
import tempfile

Function = collections.namedtuple("Function", "path name public answer lines start end")
# Lines start to end, without end, become new.
Bug = collections.namedtuple("Bug", "sort start end new")

LIMITS = re.compile(r"ran out of|outgrew the memory limit|stopped at the step limit|does not cover this function")
# A proof file that names what the bug took away (as `rt must-fail` tells it).
NAMES = re.compile(r"(note: )?(\./)?proofs/.*(has no field|is not in scope|has no `|was not admitted)")

HEAD = re.compile(r'( *)(pub(?:\(\w+\))? )?(?:extern "C" )?fn (\w+)')
PAIRS = """debit/credit debits/credits pending/posted first/second from/to moment/until number/reservation amount/part
below/from account/reservation deadline/duration used/length ledger/class script/memory memory/output accounts/reservations
policy/second legs/answers reserved/amount highest/number opened/reserved credited/debited ledger/label first/last"""


def both(sort, pairs):
    """Each of two texts in the other's place."""
    return [(sort, re.escape(one), other) for pair in pairs for one, other in (pair, pair[::-1])]


def statement(text):
    """In place of a statement (no `let`) that ends with a question mark."""
    return lambda m: m[1] + text.format(m[2]) if "let " not in m[2] else m[0]


# A sort, what it looks for, and what stands there instead.
TEXTS = [
    *both("comparison", [(" < ", " <= "), (" > ", " >= "), (" == ", " != ")]),
    ("constant", r"(?<![\w.])0(?![\w.])", "1"), ("constant", r"(?<![\w.])([1-9]\d*)(?![\w.])", lambda m: str(int(m[1]) + 1)),
    ("constant", r"\b(true|false)\b", lambda m: "false" if m[1] == "true" else "true"), ("constant", r"b'.'", "b'_'"),
    ("constant", r"(?<![\w:])[A-Z][A-Z_]{2,}\b(?!:)", lambda m: f"({m[0]} - 1)"),
    ("check not looked at", r"^( +)(\w.*)\?;$", statement("let _ = {};")),
    ("swapped arguments", r"([(, ])([a-z_][\w.]*), ([a-z_][\w.]*)(?=[),])", r"\1\3, \2"),
    ("early return", r"^( +)(\w.*)\?;$", statement("return {};")), ("loop one short", r"\b0\.\.", "1.."),
    ("stale value", r"^( +)((?:self\.|\*)?[\w.]+) = .*;$", r"\1\2 = \2;"), ("loop one short", r"\.iter\(\)", ".iter().skip(1)"),
    ("loop one short", r"\.iter_mut\(\)", ".iter_mut().skip(1)"), ("loop one short", r"\.rev\(\)", ""),
    ("loop one short", r"for (\w+) in (\w+) \{", r"for \1 in \2.iter().skip(1) {"),
    *both("and for or", [(" && ", " || ")]), ("dropped not", r"!(?=[a-z])", ""),
    *both("other operation", [("saturating_add", "saturating_sub"), (".min(", ".max("), (" + ", " - "), (" / ", " % ")]),
    *both("other operation", [(" += ", " -= "), (".first()", ".last()"), ("is_some(", "is_none("), (".any(", ".all(")]),
    ("other operation", r"take_while", "filter"), ("another variant", r"\bSome\((.*)\)$", "None"),
    ("another variant", r"\b(Ok)\((\w+)\)$", "Ok(Default::default())"), ("another variant", r"Err\(Refusal::\w+\)", "Ok(())"),
]
# What a function of an answer of this type may return at once.
EARLY = {
    r"\(\)": [""], "bool": ["false", "true"], r"u\d+|usize": ["0", "1"], "Option<.*>": ["None"], r"\[u8; 8\]": ["[0; 8]"],
    r"Result<\(\), .*>|fmt::Result": ["Ok(())"], "Result<(?:usize|u64), .*>": ["Ok(0)"],
}


def owner(lines, at):
    """The type of the impl that a line stands in, and its trait, run together as the check names them."""
    head = next((line for line in reversed(lines[:at]) if line[:1].strip() and line[0] not in "}/)#{"), "")
    if not head.startswith("impl") or not lines[at].startswith(" "):
        return ""
    trait, _, kind = re.sub(r"^impl(<[^>]*>)? ", "", head).rstrip(" {").rpartition(" for ")
    trait = re.sub(r"<(\w)(\w*)>", lambda m: m[1].upper() + m[2], trait.split("::")[-1])
    return re.sub(r"<.*", "", kind) + (trait if trait != "Drop" else "") + "::"


def functions(path, lines):
    """Finds the functions of a file that have a body of at least a line."""
    for at, line in enumerate(lines):
        if not (head := HEAD.match(line)):
            continue
        # The line that opens the body, or ends a function that has none.
        for start in range(at, len(lines)):
            text = lines[start]
            opens = text.endswith(" {") and (start == at or text.startswith(head[1] + ")"))
            if text.endswith((";", "{}")) or opens or text == head[1] + "{":
                break
        if text.endswith((";", "{}")):
            continue
        end = lines.index(head[1] + "}", start)
        answer = re.search(r"-> (.*?)(?: \{)?$", "\n".join(lines[at : start + 1]), re.M)
        name = owner(lines, at) + head[3]
        yield Function(path, name, head[2] == "pub ", answer[1] if answer else "()", lines, start + 1, end)


def full_name(found, names, crate):
    """The name that the check prints for a function."""
    module = [crate, *[part for part in found.path.with_suffix("").parts[1:] if part != "lib"]]
    fits = [name for name in names if f"::{name}".endswith(f"::{found.name}")]
    return max(fits, default=None, key=lambda name: (len(os.path.commonprefix([name.split("::"), module])), -len(name)))


def variants(top):
    """The variants of each enum of the repository, in two lists: those without fields, and those with."""
    found = {}
    for path in sorted(top.glob("crates/*/src/**/*.rt")):
        for name, body in re.findall(r"^pub(?:\(crate\))? enum (\w+) \{\n(.*?)^\}", path.read_text(), re.M | re.S):
            found[name] = re.findall(r"^    (\w+)(?: = .*)?,$", body, re.M), re.findall(r"^    (\w+)\(", body, re.M)
    return found


def one_line_bugs(at, line, enums):
    for sort, pattern, new in TEXTS:
        for place in re.finditer(pattern, line):
            yield Bug(sort, at, at + 1, [line[: place.start()] + re.sub(pattern, new, line[place.start() :], count=1)])
    for pair in PAIRS.split():
        for word, other in (pair.split("/"), pair.split("/")[::-1]):
            for place in re.finditer(rf"(?<![\w:])(\.?){word}(?=_|\b)(?!: |::)", line):
                sort = "wrong field" if place[1] else "swapped name"
                yield Bug(sort, at, at + 1, [line[: place.start()] + place[1] + other + line[place.end() :]])
    for place in re.finditer(r"\b(\w+)::([A-Z]\w+)\b", line):
        for kind in enums.get(place[1], ()):
            if place[2] in kind and len(kind) > 1:
                other = kind[(kind.index(place[2]) + 1) % len(kind)]
                yield Bug("another variant", at, at + 1, [line[: place.start(2)] + other + line[place.end() :]])
    if re.match(r" +(?!let |return|break|continue)[\w*].*;$", line):
        yield Bug("dropped statement", at, at + 1, [])


def bugs(function, enums):
    """All bugs that can be made in a function."""
    lines, top = function.lines, function.start
    indent = " " * (len(lines[function.end]) + 3)
    values = [value for kind, some in EARLY.items() if re.fullmatch(kind, function.answer) for value in some]
    for value in [value for value in values if value != lines[top].strip()]:
        yield Bug("early return", top, top + 1, [f"{indent}return {value};".replace(" ;", ";"), lines[top]])
    for at in range(top, function.end):
        one, two = lines[at], lines[at + 1]
        if one.strip().startswith(("//", "ghost ", "invariant", "prove!")):
            continue
        yield from one_line_bugs(at, one, enums)
        arms = [re.match(r"( +)(.+) => (.+),$", text) for text in (one, two)]
        if all(arms) and arms[0][3] != arms[1][3]:
            new = [f"{arms[i][1]}{arms[i][2]} => {arms[1 - i][3]}," for i in (0, 1)]
            yield Bug("arms exchanged", at, at + 2, new)
        if all(re.match(r" +\w.*;$", text) for text in (one, two)) and re.match(" +", one)[0] == re.match(" +", two)[0]:
            yield Bug("other order", at, at + 2, [two, one])


def planned(found, enums, most, seed):
    """How many bugs each function gets, and all that can be made there, ordered so that the sorts vary."""
    choice, used = random.Random(seed), collections.Counter()
    all_bugs = [list(bugs(function, enums)) for function in found]
    for kept in all_bugs:
        choice.shuffle(kept)
    quota = [min(1, len(kept)) for kept in all_bugs]
    order = sorted(range(len(found)), key=lambda i: (not found[i].public, found[i].start - found[i].end))
    for turn in range(2, 9):
        for i in order:
            if sum(quota) < most and len(all_bugs[i]) >= turn:
                quota[i] += 1
    for wanted, kept in zip(quota, all_bugs):
        # First one of each sort, the rarest sort first, then a second of each.
        here = collections.Counter()
        kept.sort(key=lambda bug: (here.update([bug.sort]), here[bug.sort], used[bug.sort])[1:])
        used.update(bug.sort for bug in kept[:wanted])
    return list(zip(found, quota, all_bugs))


def scratch(top, room):
    """A copy of the repository's crates, and by links of what was proved there."""
    copy = {True: os.link, False: shutil.copy2}
    shutil.copytree(top / "crates", f"{room}/crates", copy_function=lambda one, to: copy[one.endswith(".oantt")](one, to))
    shutil.copy2(top / "crates.txt", room)
    return room


def check(folder, *flags):
    ran = subprocess.run(["timeout", "240", "rt", "check", "--jobs", "1", *flags], cwd=folder, capture_output=True)
    return ran.returncode, (ran.stdout + ran.stderr).decode(errors="replace")


def verdict(status, text):
    """What a check says of a bug, and the first fact that no longer holds; nothing where the bug does not compile."""
    lines = text.split("\n")
    if status == 0:
        return "PROVED", ""
    if any(re.match(r"\S+:\d+:\d+: error\[", line) for line in lines):
        return None
    told = [line for line in lines if re.match(r"note: \S+:\d+:\d+:|\S+:\d+:\d+: error", line)]
    facts = sorted((line for line in told if not NAMES.match(line)), key=lambda line: "it is not proved that" not in line)
    if status == 1 and told:
        said = re.sub(r"^(note: )?\S+:\d+:\d+: (error: )?|it is not proved that ", "", (facts or told)[0]).split(";")[0]
        beside = ", and a proof file no longer fits" if len(facts) < len(told) else ""
        return (f"refused{beside}" if facts else "only a proof file no longer fits"), said[:100]
    if status == 124 or LIMITS.search(text):
        return "limit", "no verdict in 240 seconds" if status == 124 else LIMITS.search(text)[0]
    return "not known", f"status {status}: {lines[-2][:80] if len(lines) > 1 else ''}"


def try_function(rooms, crate, plan, name):
    """Plants bugs in one function of a scratch copy, one at a time, until as many as wanted compiled."""
    function, wanted, kept = plan
    room, rows, seen = rooms.pop(), [], {tuple(function.lines)}
    folder = pathlib.Path(room, "crates", crate)
    for bug in kept:
        text = (*function.lines[: bug.start], *bug.new, *function.lines[bug.end :])
        if len(rows) == wanted or text in seen:
            continue
        seen.add(text)
        (folder / function.path).write_text("\n".join(text))
        said = verdict(*check(folder, "--only", name))
        if said:
            texts = (function.lines[bug.start : bug.end], bug.new)
            rows.append((crate, name, bug.sort, *(" ".join(line.strip() for line in some) for some in texts), *said))
            print("| " + " | ".join(cell.replace("|", "\\|") for cell in rows[-1]) + " |", flush=True)
    (folder / function.path).write_text("\n".join(function.lines))
    rooms.append(room)
    return rows or print(f"no bug: {name}{' (public)' if function.public else ''}", flush=True) or []


def main():
    parser = argparse.ArgumentParser()
    parser.add_argument("crate")
    for flag, default in (("--most", 13), ("--jobs", 2), ("--seed", 1)):
        parser.add_argument(flag, type=int, default=default)
    given = parser.parse_args()
    top = pathlib.Path.cwd()
    folder = top / "crates" / given.crate
    status, text = check(folder)
    if status:
        raise SystemExit(f"{given.crate} is not proved as it stands:\n{text}")
    names = re.findall(r"^fn (\S+): proved", text, re.M)
    paths = sorted(folder.glob("src/**/*.rt"))
    found = [one for path in paths for one in functions(path.relative_to(folder), path.read_text().split("\n"))]
    plans = planned(found, variants(top), given.most, given.seed)
    with tempfile.TemporaryDirectory(prefix="plants-") as room, concurrent.futures.ThreadPoolExecutor(given.jobs) as pool:
        rooms = [scratch(top, f"{room}/{job}") for job in range(given.jobs)]
        rows = pool.map(lambda plan: try_function(rooms, given.crate, plan, full_name(plan[0], names, given.crate)), plans)
        count = collections.Counter(row[5] for some in rows for row in some)
    print(f"{given.crate}: {len(found)} functions, {sum(count.values())} bugs: {dict(count)}")


if __name__ == "__main__":
    main()
