#!/usr/bin/env bash
# Compares the speed of one and the same module on boards with more and fewer neighbours: alone, as the first of
# sixteen modules and as the sixteenth. The module counts in its data, no other is started, and `txboard replay`
# makes it run. It prints the millions of steps in a second of processor time, the best of some runs that take
# turns, and the ratio: the time over that of the module alone, of which the goal is at most 1.10.
# Then it compares `txboard hart` with the plain C interpreter bench/hart.c on the loops of bench/loops.py: the
# same rates, and what part of the rate of the C that of `hart` is, of which the goal is at least 100 %.
# The count in the report, and the texts of `hart` and the C, must be the same.
# Not a part of the gate. It says "skipped" and passes where gcc or python3 is missing, or the program isn't
# built.
# Usage: neighbours.sh [RUNS [STEPS]]
bench=neighbours
. "$(dirname "${BASH_SOURCE[0]}")/timing.sh"
needs gcc python3
interpreter
runs="${1:-10}"
most="${2:-50000000}"

# board NAME MODULES STARTED: writes a board of that number of modules, of which that one alone is started
board() {
    local m
    {
        printf 'ram = 4194304\nsteps = 0\n'
        for ((m = 0; m < $2; m++)); do
            printf '[[module]]\nname = "m%d"\nimage = "counting.img"\nstart = %s\n' "$m" \
                "$([ "$m" = "$3" ] && echo true || echo false)"
        done
    } >"$1"
}

# counted FILE: the counter in x6 of the one thread of a report
counted() {
    awk '$1 == "regs" { print $7 }' "$1"
}

cd "$work"
board alone 1 0
board first 16 0
board sixteenth 16 15
printf 'S %s\n' "$most" >log
for ((run = 0; run < runs; run++)); do
    for name in alone first sixteenth; do
        timed "$name" "$txboard" replay "$name" log || failed "$name" "a run ended with another status than 0"
    done
done
printf '%-12s %10s %8s\n' module steps ratio
for name in alone first sixteenth; do
    diff <(counted alone.out) <(counted "$name.out") >/dev/null || failed "$name" "the counts differ"
    awk -v name="$name" -v most="$most" -v alone="$(least alone)" -v here="$(least "$name")" 'BEGIN {
        printf "%-12s %10.1f %8.2f\n", name, most / here / 1e6, here / alone }'
done

printf '\n%-12s %10s %10s %8s\n' loop hart C hart/C
for loop in arithmetic memory division; do
    rm -f ./*.times
    for ((run = 0; run < runs; run++)); do
        if ! timed proved "$txboard" hart "$loop.img" "$most" || ! timed plain "$work/hart" "$loop.img" "$most"; then
            failed "$loop" "a run ended with another status than 0"
        fi
        cmp -s proved.out plain.out || failed "$loop" "the texts differ"
    done
    awk -v loop="$loop" -v most="$most" -v proved="$(least proved)" -v plain="$(least plain)" 'BEGIN {
        printf "%-12s %10.1f %10.1f %7.0f%%\n", loop, most / proved / 1e6, most / plain / 1e6, 100 * plain / proved }'
done
