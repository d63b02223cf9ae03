"""Takes out the answers in a crate's proofs that the check finds alone. Run at the top: python3 tools/answers.py CRATE

Each answer is taken out in turn, and its function checked without --margin and with it. One that either check needs goes
back. Where --margin does not prove a function as it stands, as when one that it calls needs more, the other check alone
decides. A file that is left without answers goes too. Lemmas and invariants stay, and so does an answer to several
clauses of which one is needed: answer that clause alone.
"""

import pathlib
import re
import subprocess
import sys


def proves(crate, function, flags):
    run = subprocess.run(
        ["rt", "check", "--only", function, *flags], cwd=crate, capture_output=True, text=True
    )
    said = run.stdout + run.stderr
    count = re.search(r"only=(\d+) proved=(\d+)", said)
    return "error" not in said and count is not None and count[1] == count[2]


def write(path, parts):
    if len(parts) > 1:
        path.write_text("".join(parts))
    else:
        path.unlink(missing_ok=True)


def try_file(crate, path):
    text = path.read_text()
    crate_name, where = re.search(r"^use Rattle\.(\w+)\.proofs\.(\S+)\.Goals as goal$", text, re.M).groups()
    function = f"{crate_name}::{where.replace('+', '').replace('.', '::')}"
    checks = [flags for flags in ([], ["--margin"]) if proves(crate, function, flags)]
    if [] not in checks:
        sys.exit(f"{function} is not proved as it stands")
    parts = re.split(r"(?m)^(?=pub )", text)
    for answer in parts[1:]:
        rest = [part for part in parts if part is not answer]
        write(path, rest)
        found = all(proves(crate, function, flags) for flags in checks)
        print(function, answer.split()[1], "found" if found else "needed", flush=True)
        if found:
            parts = rest
        else:
            write(path, parts)


crate = pathlib.Path("crates") / sys.argv[1]
for path in sorted((crate / "proofs").rglob("Answers.antt")):
    try_file(crate, path)
