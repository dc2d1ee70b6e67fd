#!/usr/bin/env bash
# Two million chained SHA-256 of 32 bytes in Rattle, C and Rust: the least user time of five runs each, and the ratios.
set -euo pipefail
cd "$(dirname "$0")/.."
mkdir -p target/bench
(cd crates/bench_sha256 && rt run) >target/bench/check.log 2>&1 || { tail -n 20 target/bench/check.log; exit 1; }
gcc -O3 -o target/bench/sha256_c bench/sha256.c
rustc -O -o target/bench/sha256_rust bench/sha256.rs

# Prints the least user time of five runs in seconds.
least() {
    local run
    for run in 1 2 3 4 5; do
        { TIMEFORMAT=%U; time "$1" >/dev/null; } 2>&1
    done | sort -n | head -n 1
}

rattle=crates/bench_sha256/out/bench_sha256 c=target/bench/sha256_c rust=target/bench/sha256_rust
digest=$("$rattle")
[ "$("$c")" = "$digest" ] && [ "$("$rust")" = "$digest" ] || { echo "the digests differ"; exit 1; }
a=$(least "$rattle") b=$(least "$c") d=$(least "$rust")
awk -v a="$a" -v b="$b" -v d="$d" 'BEGIN {
    printf "Rattle %.3f s, C %.3f s, Rust %.3f s\n", a, b, d
    printf "Rattle/C %.2f, Rattle/Rust %.2f\n", a / b, a / d
    exit !(a <= 1.1 * b && a <= 1.1 * d)
}'
