#!/usr/bin/env bash
# Measures the proved engine beside others and prints one table: the best of some rounds, in which the engines take turns.
# WATER_BOOK_LIB, if it is set, is the whole path of a folder with libhub.a; else the library is built first.
# The argument is the number of rounds.
set -euo pipefail
cd "$(dirname "$0")/.."
. bench/build.sh

for _ in $(seq "${1:-3}"); do
    "$bench" measure "$work"
    java -cp "$work/java" Bench "$work"
done
"$bench" table "$work"
