#!/usr/bin/env bash
# Runs scripts of calls on the proved engine and on the second one, which was written from the rules alone, and compares
# every byte. Arguments go to the comparison: --seed N, --calls N, --seconds N,
# --engine fast (the engine of bench/fast in the second one's place).
set -euo pipefail
cd "$(dirname "$0")/.."
(cd crates/hub && rt lib >/dev/null)
export WATER_BOOK_LIB="$PWD/crates/hub/out"
cd rust
cargo test --quiet --offline >/dev/null
cargo build --release --quiet --offline
./target/release/differ "$@"
