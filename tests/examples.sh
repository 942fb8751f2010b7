#!/usr/bin/env bash
# The examples: each sheet and each Tucson text gives the printout that stands beside it, C and Rust print the values that the
# sheet of W1 has, and a printout that can't be written is said on standard error.
set -u
cd "$(dirname "$0")/.."
from_c=$1 from_rust=$2 sheet=$3 tucson=$4
failed=0

same() {
    diff <(cat "$2") <(cat "$3") >/dev/null || { printf 'differs: %s\n' "$1"; failed=1; }
}

# The program on each example with this ending.
printouts() {
    for input in examples/*/*."$2"; do
        kept=${input%."$2"}.out
        [ -s "$kept" ] || { printf 'missing: %s\n' "$kept"; failed=1; continue; }
        same "$input" <("$1" <"$input") "$kept"
    done
}

printouts "$sheet" sheet
printouts "$tucson" rwl
for kept in examples/*/*.out; do
    [ -s "${kept%.out}.sheet" ] || [ -s "${kept%.out}.rwl" ] || { printf 'a printout without its input: %s\n' "$kept"; failed=1; }
done
values=$(sed -n 's/^v=//p' examples/sheets/w1.out)
[ "$("$from_c")" = "$values" ] || { echo 'differs: examples/c/curve.c'; failed=1; }
[ "$("$from_rust")" = "$values" ] || { echo 'differs: examples/rust/curve.rs'; failed=1; }
if [ -e /dev/full ]; then
    "$sheet" <examples/sheets/w1.sheet 2>&1 >/dev/full | grep -q '^write: ' || { echo 'no message where nothing can be written'; failed=1; }
fi
exit "$failed"
