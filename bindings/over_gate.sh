#!/bin/sh
# Proves and builds the static library over the libraries that `rt ci` has just left in crates/*/out: over_gate.sh FOLDER, where the
# archive goes, with what its check keeps for the next one. `rt lib` would build those libraries anew, as it takes only its own. Nothing
# here looks whether they fit the sources, as those of a gate that has just passed do.
set -eu
mkdir -p "$1"
made=$(cd "$1" && pwd)
cd "$(dirname "$0")/../crates/embed"
kit=$(dirname "$(rt doc)")
set -- --crate-name embed --crate-type staticlib --extern "std=$kit/rlibs/std.rlib" -L "dependency=$kit/rlibs"
for used in $(sed -n 's/^embed staticlib: //p' ../../crates.txt); do
    set -- "$@" --extern "$used=../$used/out/rlib/$used.rlib"
done
for folder in ../*/out/rlib; do
    set -- "$@" -L "dependency=$folder"
done
set -- "$@" --antt-project "$kit/rattle/logic/antt-project.json" --logic-built "$kit/logic_built" --incremental "$made/incremental"
set -- "$@" --jobs 2 --toolchain "$kit/toolchain" --backend llvm -o "$made/libembed.a"
"$kit/bin/rattle" build "$@" src/lib.rt >"$made/log" 2>&1 || {
    cat "$made/log" >&2
    exit 1
}
