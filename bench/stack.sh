#!/usr/bin/env bash
# Measures by massif how many bytes of stack a call of the library takes, on a journal of each kind: the most that the process
# has while a script of every call runs. Less than 1 KiB of it are the program's own.
# WATER_BOOK_LIB is as in run.sh.
set -euo pipefail
cd "$(dirname "$0")/.."
. bench/build.sh

# The most bytes of stack while an engine runs a case.
peak() {
    valgrind --tool=massif --stacks=yes --heap=no --peak-inaccuracy=0.0 --massif-out-file="$work/massif" \
        "$bench" once "$1" "$work" "$2" 2>/dev/null
    sed -n 's/^mem_stacks_B=//p' "$work/massif" | sort -n | tail -1
}

echo "| bytes of stack over | proved | fast safe Rust |"
echo "|---|---|---|"
kind=0
for journal in "a roll" "a strip" "a mirror of a roll and a strip" "a mirror of a strip and a roll"; do
    echo "| $journal | $(peak proved "calls-$kind") | $(peak fast "calls-$kind") |"
    kind=$((kind + 1))
done
