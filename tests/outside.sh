#!/usr/bin/env bash
# The drivers as the comparisons run them under valgrind must fail where a call reads one cell before or after anything that it
# is lent, and only then. The arguments are the two drivers over tests/driver/outside.c: driver and tucson.
set -u
driver=$1 tucson=$2
failed=0
tried=0

# Runs one call line by a driver and says whether valgrind ended it as it ends a bad read.
seen() {
    printf '%s\n' "$2" | OUTSIDE_ARGUMENT=$3 OUTSIDE_SIDE=$4 valgrind --quiet --error-exitcode=9 "$1" --exact >/dev/null 2>&1
    [ $? -eq 9 ]
}

# Every list and buffer of a call line, on both sides.
try() {
    seen "$1" "$2" -1 after && { echo "seen, though nothing is read outside: $2"; failed=1; }
    # each word with a list or a buffer; the first ring, the width, the segment, the header and the unit are neither
    arguments=$(grep -oE '[a-z]+=' <<<"$2" | grep -cvE '^(first|width|segment|header|unit)=')
    for ((argument = 0; argument < arguments; argument++)); do
        for side in before after; do
            tried=$((tried + 1))
            seen "$1" "$2" "$argument" "$side" || { echo "not seen: argument $argument, $side, of $2"; failed=1; }
        done
    done
}

lists='breaks=0,1,3 degrees=2,2 orders=1'
rings="$lists coefs=0,0,100,100,0,0,0,0 first=1 widths=5,7 num=5184:7 den=5184:9 values=4:5 indices=2:3"
try "$driver" "build $lists num=5184:7 den=5184:9"
try "$driver" "curve $lists coefs=0,0,100,-100,0,0,0,0 at=256,512 num=5184:7 den=5184:9 values=4:5"
try "$driver" "earlywood_indices $rings"
try "$driver" "latewood_indices $rings"
space="$lists coefs=0,0,100,100,0,0,0,0"
for part in earlywood latewood; do
    try "$driver" "${part}_ring_lines name=79,65,75,32,32,32,32,32 first=1900 widths=5,7 values=4,5,6,7 indices=1,2 out=99:1"
    try "$driver" "${part}_reach $space width=5 num=5184:7 den=5184:9"
    try "$driver" "${part}_piece $space segment=1 num=5184:7 den=5184:9"
done
try "$driver" "coefficients $lists ordinates=0,300,200,200,0,0 num=5184:7 den=5184:9 coef_num=6:5 coef_den=6:3"
try "$tucson" 'read text=65,66,67 names=8:1 years=1:2 counts=1:3 widths=4:5'
try "$tucson" 'clean text=65,66,67 header=100 unit=0 out=7:1 lines=2:2 notes=4:3'
try "$tucson" 'write names=65,66,67 years=1900 counts=2 widths=5,7 text=40:1'
[ "$failed" -eq 0 ] && echo "outside: $tried reads outside, all seen"
exit "$failed"
