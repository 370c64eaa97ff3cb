#!/usr/bin/env bash
# Compares the speed of `txboard replay` on a board of one module with that of `txboard hart` on the same
# image, and both with the plain C interpreter bench/hart.c, on the four loops of bench/loops.py. It prints the
# millions of steps in a second of processor time, the best of some runs that take turns, and what part of the
# rate of `hart` that of `replay` is, and of the C that of `hart`.
# The registers in the report must be those that `hart` prints.
# Then it times logs of 65,536 ticks at which nothing is due, while no thread, 1, 16 and 250 threads sleep, and prints the nanoseconds
# that a line of the log costs, the tick with it, and how many of them are more than where nobody sleeps.
# Not a part of the gate. It says "skipped" and passes where gcc or python3 is missing, or the program isn't
# built.
# Usage: replay.sh [RUNS [STEPS]]
bench=replay
. "$(dirname "${BASH_SOURCE[0]}")/timing.sh"
needs gcc python3
interpreter
runs="${1:-10}"
most="${2:-100000000}"

cd "$work"
printf 'S %s\n' "$most" >log

printf '%-12s %10s %10s %10s %14s %10s\n' loop replay hart C replay/hart hart/C
for loop in counting arithmetic memory division; do
    rm -f ./*.times
    printf 'ram = 4194304\nsteps = 0\n[[module]]\nname = "one"\nimage = "%s.img"\nstart = true\n' "$loop" >board
    for ((run = 0; run < runs; run++)); do
        if ! timed board "$txboard" replay board log || ! timed alone "$txboard" hart "$loop.img" "$most" ||
            ! timed plain "$work/hart" "$loop.img" "$most"; then
            failed "$loop" "a run ended with another status than 0"
        fi
        diff <(grep '^regs ' board.out) <(grep '^regs ' alone.out) >/dev/null ||
            failed "$loop" "the registers differ"
    done
    awk -v loop="$loop" -v most="$most" -v board="$(least board)" -v alone="$(least alone)" -v plain="$(least plain)" 'BEGIN {
        printf "%-12s %10.1f %10.1f %10.1f %13.0f%% %9.0f%%\n", loop, most / board / 1e6, most / alone / 1e6, most / plain / 1e6,
            100 * alone / board, 100 * plain / alone }'
done

# board SLEEPERS: a board with that number of sleepers; where there is none its module isn't started
board() {
    local image=sleepers$1 start=true
    if [ "$1" = 0 ]; then image=sleepers1 start=false; fi
    printf 'ram = 65536\nsteps = 0\n[[module]]\nname = "one"\nimage = "%s.img"\nstart = %s\n' "$image" "$start"
    printf '[[device]]\nname = "tick"\naction = "tick"\nscript = []\n'
}
printf 'S 10000\n' >none
awk 'BEGIN { print "S 10000"; for (i = 0; i < 65536; i++) print "I 0 00000000" }' >ticks

printf '\n%-12s %12s %12s\n' sleepers 'ns a tick' 'more than 0'
for sleepers in 0 1 16 250; do
    rm -f ./*.times
    board "$sleepers" >board
    for ((run = 0; run < runs; run++)); do
        if ! timed ticks "$txboard" replay board ticks || ! timed none "$txboard" replay board none; then
            failed "$sleepers sleepers" "a run ended with another status than 0"
        fi
        grep -q "^waits begun $sleepers satisfied 0 timedout 0 aborted 0 deleted 0 gone 0\$" ticks.out ||
            failed "$sleepers sleepers" "others began to sleep, or one woke"
    done
    each=$(awk -v ticks="$(least ticks)" -v none="$(least none)" 'BEGIN { printf "%.0f", (ticks - none) * 1e9 / 65536 }')
    alone=${alone:-$each}
    printf '%-12s %12s %12s\n' "$sleepers" "$each" $((each - alone))
done
