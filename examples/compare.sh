#!/bin/sh
# Proves and builds the console and the sheet program, gives them each visit and each sheet that lies here, and holds what they
# print to what is stored beside it. With --over-gate it takes the programs that `rt ci` has just left in crates/*/out.
set -eu
cd "$(dirname "$0")/.."
out=target/examples
mkdir -p "$out"

# A run builds each program, which is then started by itself.
if [ "${1:-}" != --over-gate ]; then
    for program in console report; do
        (cd "crates/$program" && rt run </dev/null >/dev/null)
    done
fi

# Gives a program an example, and compares what it prints. A minute is more than any takes.
compare() {
    program=$1 input=$2 stored=$3
    timeout 60 "crates/$program/out/$program" <"$input" >"$out/printed"
    cmp "$out/printed" "$stored"
    echo "$input: as stored"
}

for visit in examples/*.txt; do
    compare console "$visit" "${visit%.txt}.out"
done
for sheet in examples/*.sheet; do
    compare report "$sheet" "${sheet%.sheet}.report"
done

# An input without an end is longer than a sheet may be, and is refused all the same: of a long one so much is read as decides.
compare report /dev/zero examples/endless.report
head -c 20000 /dev/zero >"$out/long"
{
    crates/report/out/report >"$out/printed"
    cat >"$out/left"
} <"$out/long"
cmp "$out/printed" examples/endless.report
[ "$(wc -c <"$out/left")" -eq 3615 ]
echo "20,000 bytes: as stored, and 3,615 are not read"
