#!/usr/bin/env bash
# Times `txboard run` where sixteen devices raise 4,096 words each, beside the same work in C (bench/run.c: a mutex and
# a ring of 256 words). One board does nothing; on the other three modules count for 100,000 steps. It prints the
# thousands of words in a second of the clock, the best of some runs that take turns, and what part of the rate of the
# C that of the program is, of which the goal is at least 50 %. Before that, each device's words must stand in what one
# run of each writes, all of them and in their order.
# With `load`, beside twice as many busy threads as there are processors, a hundred runs of the board of three modules
# must end well and lose nothing, and it prints how many did.
# Not a part of the gate. It says "skipped" and passes where gcc or python3 is missing, or the program isn't built.
# Usage: run.sh [RUNS], or run.sh load [RUNS]
bench=run
. "$(dirname "${BASH_SOURCE[0]}")/timing.sh"
needs gcc python3
gcc -O2 -std=gnu11 -Wall -Wextra -pthread -o "$work/plain" bench/run.c
python3 bench/loops.py "$work"

# board STEPS STARTED MODULES: a board of that many modules, started or not, and of sixteen devices
board() {
    local m d
    printf 'ram = 1048576\nsteps = %s\n' "$1"
    for ((m = 0; m < $3; m++)); do
        printf '[[module]]\nname = "m%d"\nimage = "counting.img"\nstart = %s\n' "$m" "$2"
    done
    for ((d = 0; d < 16; d++)); do
        printf '[[device]]\nname = "d%d"\naction = "resume"\ntarget = "start"\nscript = [%s]\nrepeat = 16\n' \
            "$d" "$(seq -s ', ' 0 255)"
    done
}

# run NAME: a run of a board, or of the C; what it writes is left to the caller
run() {
    if [ "$1" = plain ]; then
        timeout 120 "$work/plain"
    else
        (cd "$work" && timeout 120 "$txboard" run "$1.board.toml")
    fi
}

# whole NAME: a run ends well, and of each device 4,096 words were written, in their order
whole() {
    run "$1" >"$work/log" 2>"$work/err" &&
        awk '$1 == "I" && $3 == sprintf("%08x", count[$2] % 256) { count[$2]++; next }
            $1 == "I" { bad = 1 }
            END { for (d = 0; d < 16; d++) bad = bad || count[d] != 4096; exit bad }' "$work/log"
}

# speed RUNS: the table
speed() {
    local name k begun
    for name in nothing three plain; do
        whole "$name" || failed "$name" "a run ended in another way, or words were lost"
    done
    for ((k = 0; k < $1; k++)); do
        for name in nothing three plain; do
            begun=$(date +%s%N)
            run "$name" >/dev/null 2>"$work/err" || failed "$name" "a run ended with another status than 0"
            echo $(($(date +%s%N) - begun)) >>"$work/$name.times"
        done
    done
    printf '%-8s %14s %8s\n' board 'words/s, 1000' 'of C'
    for name in nothing three plain; do
        awk -v name="$name" -v c="$(sort -n "$work/plain.times" | head -n 1)" 'NR == 1 || $1 < best { best = $1 }
            END { printf "%-8s %14.0f %7.0f%%\n", name, 65536e6 / best, 100 * c / best }' "$work/$name.times"
    done
}

# load RUNS: runs beside busy threads
load() {
    local k good=0 busy=()
    for ((k = 0; k < 2 * $(nproc); k++)); do
        (while :; do :; done) &
        busy+=($!)
    done
    for ((k = 0; k < $1; k++)); do
        if whole three; then good=$((good + 1)); else echo "run $k: $(cat "$work/err")"; fi
    done
    kill "${busy[@]}"
    echo "beside ${#busy[@]} busy threads: $good of $1 runs ended well and lost nothing"
    [ "$good" = "$1" ]
}

board 1 false 1 >"$work/nothing.board.toml"
board 100000 true 3 >"$work/three.board.toml"
if [ "${1:-}" = load ]; then load "${2:-100}"; else speed "${1:-10}"; fi
