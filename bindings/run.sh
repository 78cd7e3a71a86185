#!/bin/sh
# Proves and builds the static library, builds the C and the Rust example and the C test of bad input over it, runs them,
# and holds what they print to bindings/expected; and runs the tests of the Rust crate. With --valgrind the C programs run
# under valgrind, too. With --over-gate the library is built over what `rt ci` has just left. What a machine has no compiler for
# is passed over.
set -eu
cd "$(dirname "$0")/.."
out=target/bindings
lib=crates/embed/out
mkdir -p "$out"

# Whether a command is here. (Cargo may be a shim without a compiler behind it.)
has() {
    "$1" --version >/dev/null 2>&1
}

if ! has cc; then
    echo "no C compiler (cc) on this machine: the C programs and the Rust crate, which is linked by it, are passed over"
    exit 0
fi
if [ "${1:-}" = --over-gate ]; then
    lib=target/gate
    bindings/over_gate.sh "$lib"
else
    (cd crates/embed && rt lib)
fi

for program in example bad_input; do
    cc -std=c11 -Wall -Wextra -Werror -O2 -Iinclude -o "$out/$program" "bindings/c/$program.c" "$lib/libembed.a"
done

# Runs a program, which has to end with a status, and keeps what it prints.
run() {
    name=$1 wanted=$2
    shift 2
    status=0
    "$@" >"$out/$name.out" || status=$?
    if [ "$status" -ne "$wanted" ]; then
        cat "$out/$name.out" >&2
        echo "$name: ends with $status, not with $wanted" >&2
        exit 1
    fi
}

# Runs a program and compares what it prints with a stored file.
compare() {
    name=$1 expected=$2
    shift 2
    run "$name" 0 "$@"
    cmp "$out/$name.out" "bindings/expected/$expected.txt"
    echo "$name: as expected"
}

compare c-example example "$out/example"
compare bad-input bad_input "$out/bad_input"

# Where one item is written too far, the test of bad input ends with 1, and names the guards of each list that may be written,
# and no other check. Lines that repeat are compared once.
cc -std=c11 -Wall -Wextra -Werror -O2 -Iinclude -Wl,--wrap=zucchinicove_report -Wl,--wrap=zucchinicove_run \
    -o "$out/one_too_far" bindings/c/bad_input.c bindings/c/one_too_far.c "$lib/libembed.a"
run one-too-far 1 "$out/one_too_far"
uniq "$out/one-too-far.out" | cmp - bindings/expected/one_too_far.txt
echo "one-too-far: noticed"

# The example of the Rust crate, which prints what the one in C prints, and its tests.
if has cargo; then
    export ZUCCHINICOVE_LIB="$PWD/$lib"
    cargo build --offline --quiet --manifest-path bindings/rust/Cargo.toml --target-dir "$out/cargo" --examples
    compare rust-example example "$out/cargo/debug/examples/sheets"
    run rust-tests 0 cargo test --offline --quiet --manifest-path bindings/rust/Cargo.toml --target-dir "$out/cargo" \
        --no-fail-fast --test refusals --test bounds
    echo "rust-tests: passed"
else
    echo "no cargo on this machine: the Rust crate is passed over"
fi

if [ "${1:-}" = --valgrind ]; then
    compare c-example-valgrind example valgrind --quiet --error-exitcode=1 --leak-check=full "$out/example"
    compare bad-input-valgrind bad_input valgrind --quiet --error-exitcode=1 --leak-check=full "$out/bad_input"
fi
