#!/bin/sh
# Times px, plain Rust and numpy on ROWS rows, TIMES times in each round, and prints one table with the ratios.
set -eu
rows=${1:-10000000}
times=${2:-1}
top=$(cd "$(dirname "$0")/.." && pwd)
made=$(mktemp -d)
trap 'rm -rf "$made"' EXIT
rustc -O --edition 2024 -o "$made/plain" "$top/bench/plain.rs"
(cd "$top/crates/px_bench" && rt run -- "$rows" "$times") 2>"$made/px" >"$made/log" ||
    { cat "$made/log" "$made/px" >&2; exit 1; }
"$made/plain" "$rows" "$times" 2>"$made/plain_rust"
/usr/bin/python3 "$top/bench/compare.py" "$rows" "$times" 2>"$made/numpy"
/usr/bin/python3 "$top/bench/compare.py" "$made/px" "$made/plain_rust" "$made/numpy"
