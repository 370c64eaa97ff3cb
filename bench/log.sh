#!/usr/bin/env bash
# Reads and prints again logs of as many lines as there may be, by `txboard replay` on a board on which nothing
# runs, and prints the megabytes of log in a second of processor time beside those of `wc` on the same file: the
# best of some runs that take turns. What is printed must begin with the log itself.
# A log has at most 65,536 interrupts, so one with a single step before each has a little over a megabyte;
# the rest of the time of a run is its steps, its start and its report.
# Not a part of the gate. It says "skipped" and passes where the program isn't built, or awk is missing.
# Usage: log.sh [RUNS]
bench=log
. "$(dirname "${BASH_SOURCE[0]}")/timing.sh"
runs="${1:-10}"

cp examples/p1.img "$work/"
cd "$work"
{
    printf 'ram = 1048576\nsteps = 0\n[[module]]\nname = "one"\nimage = "p1.img"\nstart = true\n'
    for ((d = 0; d < 16; d++)); do
        printf '[[device]]\nname = "d%d"\naction = "resume"\ntarget = "none"\nscript = []\n' "$d"
    done
} >board
awk 'BEGIN { for (i = 0; i < 65536; i++) printf "I 15 %08x\n", i * 32749 }' >interrupts
awk 'BEGIN { for (i = 0; i < 65536; i++) printf "S 1\nI 15 %08x\n", i * 32749; printf "S 1\n" }' >both

printf '%-12s %10s %14s %10s %8s\n' log bytes 'txboard MB/s' 'wc MB/s' ratio
for log in interrupts both; do
    rm -f ./*.times
    size=$(wc -c <"$log")
    for ((run = 0; run < runs; run++)); do
        if ! timed proved "$txboard" replay board "$log" || ! timed plain wc "$log"; then
            failed "$log" "a run ended with another status than 0"
        fi
        head -c "$size" proved.out | cmp -s - "$log" || failed "$log" "the log doesn't come back"
    done
    awk -v name="$log" -v size="$size" -v proved="$(least proved)" -v plain="$(least plain)" 'BEGIN {
        printf "%-12s %10d %14.1f %10.1f %8.2f\n", name, size, size / proved / 1e6, size / plain / 1e6, proved / plain }'
done
