#!/bin/sh
# Proves and builds the static library and the console, builds the second roster, and compares: the library on seeded
# sheets and job lists, and the console on seeded visits: compare.sh [seed] [number of sheets] [number of visits].
# It ends with an error where either differs; what differs is in target/second/differ.
set -eu
cd "$(dirname "$0")/.."
differ=target/second/differ
rm -rf "$differ"
(cd crates/embed && rt lib)
ZUCCHINICOVE_LIB="$PWD/crates/embed/out" cargo build --offline --quiet --release \
    --manifest-path second/Cargo.toml --target-dir target/second
status=0
target/second/release/compare "${1:-20261118}" "${2:-1000000}" "$differ" || status=1
(cd crates/console && rt run < /dev/null > /dev/null)
target/second/release/visits crates/console/out/console "${1:-20261118}" "${3:-20000}" "$differ" || status=1
exit "$status"
