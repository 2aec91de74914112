#!/usr/bin/env bash
# Plays every day of examples/ and compares what is printed with the text beside it. A line for each; fails on a difference.
#
#     bash tools/examples.sh [PROGRAM]        PROGRAM is crates/dayrun/out/dayrun if it is left out
set -u
program=$(realpath -m "${1:-$(dirname "$0")/../crates/dayrun/out/dayrun}")
cd "$(dirname "$0")/.." || exit 1
[ -x "$program" ] || { echo "no program $program"; exit 1; }

passed=0
failed=0
report() { # report TITLE WHAT: counts and says that it is so, or not, by the status of the command before
    if [ "$?" -eq 0 ]; then
        passed=$((passed + 1))
        echo "ok   $1"
    else
        failed=$((failed + 1))
        echo "FAIL $1: $2"
    fi
}

printed=$(mktemp)
trap 'rm -f "$printed"' EXIT
for bytes in examples/*.bin; do
    title=$(basename "$bytes" .bin)
    "$program" "$bytes" > "$printed" && cmp -s "$printed" "examples/$title.txt"
    report "$title" "prints something else than examples/$title.txt, or fails"
    "$program" < "$bytes" > "$printed" && cmp -s "$printed" "examples/$title.txt"
    report "$title from standard input" "prints something else than examples/$title.txt, or fails"
done
# The busy day is also the program's own test.
cmp -s examples/busy.bin crates/dayrun/stdin && cmp -s examples/busy.txt crates/dayrun/stdout
report "busy is the day in crates/dayrun" "crates/dayrun/stdin or stdout differs"

echo "$passed passed, $failed failed"
[ "$failed" -eq 0 ] && [ "$passed" -gt 1 ]
