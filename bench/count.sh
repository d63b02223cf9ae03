#!/usr/bin/env bash
# Counts instructions by callgrind: of one transfer, one pair of a reserve and its post, and one entry read, each as the
# difference of two runs, so that what a run costs besides falls out; and of a book's creation and an empty output.
# WATER_BOOK_LIB is as in run.sh.
#
# Callgrind counts each byte that `rep movsb` and `rep stosb` move as an instruction of its own, so the C library is told
# to copy and fill by vectors.
set -euo pipefail
cd "$(dirname "$0")/.."
. bench/build.sh

never=glibc.cpu.x86_rep_movsb_threshold=1000000000:glibc.cpu.x86_rep_stosb_threshold=1000000000

# The instructions of one run of an engine on a case.
run() {
    GLIBC_TUNABLES=$never valgrind --tool=callgrind --callgrind-out-file=/dev/null "$bench" once "$1" "$work" "$2" 2>&1 |
        sed -n 's/.*Collected : \([0-9]*\).*/\1/p'
}

# Of an engine: a kind of case, and how many there are in the short and in the long run.
each() {
    echo $((($(run "$1" "$2-$4") - $(run "$1" "$2-$3")) / ($4 - $3)))
}

echo "| instructions of | proved | fast safe Rust |"
echo "|---|---|---|"
echo "| a transfer | $(each proved transfers 1000 10000) | $(each fast transfers 1000 10000) |"
echo "| a pair of a reserve and its post | $(each proved pairs 128 256) | $(each fast pairs 128 256) |"
echo "| an entry read | $(each proved entries 1002 40002) | $(each fast entries 1002 40002) |"
besides=$(run none empty-1)
echo "| a book's creation | $(($(run proved empty-1) - besides)) | $(($(run fast empty-1) - besides)) |"
