#!/usr/bin/env bash
# Compares the speed of `txboard hart` with that of a plain C interpreter of the same machine, bench/hart.c,
# on three loops. Both must print the same text. It prints the millions of instructions in a second of
# processor time, the best of some runs that take turns, and the ratio: the program's time over that of the C.
# Not a part of the gate. It says "skipped" and passes where gcc or python3 is missing, or the program isn't
# built.
# Usage: hart.sh [RUNS [INSTRUCTIONS]]
bench=hart
. "$(dirname "${BASH_SOURCE[0]}")/timing.sh"
needs gcc python3
interpreter
runs="${1:-10}"
most="${2:-100000000}"

printf '%-12s %10s %10s %8s\n' loop txboard C ratio
for loop in arithmetic memory division; do
    rm -f "$work"/*.times
    for ((run = 0; run < runs; run++)); do
        if ! timed proved "$txboard" hart "$work/$loop.img" "$most" ||
            ! timed plain "$work/hart" "$work/$loop.img" "$most"; then
            failed "$loop" "a run ended with another status than 0"
        fi
        if ! cmp -s "$work/proved.out" "$work/plain.out"; then
            diff "$work/proved.out" "$work/plain.out" || true
            failed "$loop" "the texts differ"
        fi
        head -n 1 "$work/proved.out" | grep -qx "hart steps $most end count" ||
            failed "$loop" "it ended before $most instructions"
    done
    awk -v loop="$loop" -v most="$most" -v proved="$(least proved)" -v plain="$(least plain)" 'BEGIN {
        printf "%-12s %10.1f %10.1f %8.2f\n", loop, most / proved / 1e6, most / plain / 1e6, proved / plain }'
done
