#!/usr/bin/env bash
# Misuses that the compiler must refuse before a program runs. Each crates/NAME/refused/*.edit is applied to a copy of
# the repository. The compiler must answer with the error that its 'error:' line names, or, where a refusal has no name, say
# the whole text of its 'said:' line of the function that it names there.
set -euo pipefail
root=$(cd "$(dirname "$0")/.." && pwd)
work=$(mktemp -d)
trap 'rm -rf "$work"' EXIT
mkdir "$work/crates"
cp "$root/crates.txt" "$work/"
for crate in "$root"/crates/*; do
    mkdir "$work/crates/${crate##*/}"
    for part in src specs proofs; do
        if [ -d "$crate/$part" ]; then cp -r "$crate/$part" "$work/crates/${crate##*/}/"; fi
    done
done

refused=0
for edit in "$root"/crates/*/refused/*.edit; do
    crate=$(basename "$(dirname "$(dirname "$edit")")")
    label=$crate/$(basename "$edit" .edit)
    rm -rf "$work/crates/$crate/src"
    cp -r "$root/crates/$crate/src" "$work/crates/$crate/"
    python3 - "$edit" "$work/crates/$crate" <<'PY'
import sys
edit, crate = sys.argv[1:]
lines = dict(line.split(": ", 1) for line in open(edit).read().splitlines())
path = f"{crate}/{lines['file']}"
text = open(path).read()
if text.count(lines["old"]) != 1:
    sys.exit(f"{edit}: the old text does not stand once in {path}")
open(path, "w").write(text.replace(lines["old"], lines["new"]))
PY
    error=$(sed -n 's/^error: //p' "$edit")
    said=$(sed -n 's/^said: //p' "$edit")
    if [ -n "$error" ] && [ -z "$said" ]; then
        wanted=$error answer="error[$error]"
    elif [ -z "$error" ] && [[ $said == "fn "*": no proof: "* ]]; then
        wanted=${said#*: no proof: } answer=$said
    else
        echo "refused: $label: it takes one line, 'error: NAME' or 'said: fn NAME: no proof: TEXT'" >&2
        exit 1
    fi
    (cd "$work/crates/$crate" && timeout 1800 rt check) > "$work/log" 2>&1 || true
    if ! grep -qF "$answer" "$work/log"; then
        echo "refused: $label: NOT refused with $wanted" >&2
        tail -n 20 "$work/log" >&2
        exit 1
    fi
    echo "refused: $label: $wanted, as it must be"
    refused=$((refused + 1))
done
echo "refused: $refused misuses"
