# Builds what is measured and writes the cases: $bench is the program in Rust, $work the folder of cases and of the
# program in Java, which goes when the shell ends.
if [ -z "${WATER_BOOK_LIB:-}" ]; then
    (cd crates/hub && rt lib >/dev/null)
    export WATER_BOOK_LIB="$PWD/crates/hub/out"
fi
(cd bench && cargo build --release --quiet --offline)
bench=$PWD/bench/target/release/bench
work=$(mktemp -d)
trap 'rm -rf "$work"' EXIT
javac -d "$work/java" bench/java/*.java
"$bench" write "$work"
