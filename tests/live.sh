#!/usr/bin/env bash
# Live runs of a board with four modules and five devices, one of which makes ticks: each ends well, and the log that it printed is
# replayed to the same text. Outside of the gate. Calls: tests/live.sh [RUNS] [FIRST SEED]; a seed gives the steps and the scripts.
set -u
export LC_ALL=C
top=$(cd "$(dirname "${BASH_SOURCE[0]}")/.." && pwd)
txboard=$top/crates/txboard/out/txboard
runs=${1:-100} first=${2:-1}
work=$(mktemp -d) || exit 1
trap 'rm -rf "$work"' EXIT
cp "$top"/examples/asm/{meter,radio}.img "$top/examples/p1.img" "$top/tests/sessions/telemetry/telemetry.img" "$work"
"$top/txboard" >"$work/usage" </dev/null

# board SEED: up to 20,000 steps, and devices with up to 400 words each
board() {
    local image device words
    RANDOM=$1
    printf 'ram = 1048576\nsteps = %s\n' $((RANDOM % 20001))
    for image in meter radio p1 telemetry; do
        printf '[[module]]\nname = "%s"\nimage = "%s.img"\nstart = true\n' "$image" "$image"
    done
    for device in a b c d tick; do
        printf '[[device]]\nname = "%s"\n' "$device"
        if [ "$device" = tick ]; then printf 'action = "tick"\n'; else printf 'action = "resume"\ntarget = "start"\n'; fi
        printf 'script = ['
        for ((words = RANDOM % 401; words > 0; words--)); do printf '%s, ' "$RANDOM"; done
        printf ']\n'
    done
}
# lives SEED: the log that the board's run printed is replayed to the same text
lives() {
    board "$1" >"$work/board.toml"
    (
        cd "$work" || exit
        "$txboard" run board.toml >live || exit
        sed '/^report$/,$d' live >log
        "$txboard" replay board.toml log | cmp - live
    )
}

failed=0
for ((seed = first; seed < first + runs; seed++)); do
    lives "$seed" || { failed=$((failed + 1)); echo "FAILED: seed $seed"; }
done
echo "seeds $first to $((first + runs - 1)): $((runs - failed)) passed, $failed failed"
[ "$failed" -eq 0 ]
