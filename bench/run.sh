#!/bin/sh
# Proves and builds the static libraries, builds straight Rust of the same algorithms beside them at four places in memory, runs
# both on the same inputs, and prints how long each answer takes, beside the other ways: run.sh [repetitions]. It ends with an error
# where an answer differs. Straight Rust is built for the processor kind that `rt` builds for, which counts the ones of a word in one
# instruction. The tables of each build stand in target/bench.
set -eu
cd "$(dirname "$0")/.."
(cd crates/embed && rt lib)
(cd crates/bench_calls && rt lib)
export ZUCCHINICOVE_LIB="$PWD/crates/embed/out"
export ZUCCHINICOVE_CALLS="$PWD/crates/bench_calls/out/libbench_calls.a"
out=target/bench
for shift in 0 16 32 48; do
    BENCH_SHIFT=$shift RUSTFLAGS="-C target-cpu=x86-64-v2" cargo build --offline --quiet --release \
        --manifest-path bench/Cargo.toml --target-dir "$out"
    "$out/release/bench" "${1:-15}" "$out/times.$shift" >"$out/tables.$shift" || {
        cat "$out/tables.$shift"
        exit 1
    }
done
exec "$out/release/bench" middle "$out/times.0" "$out/times.16" "$out/times.32" "$out/times.48"
