# What the scripts beside this file share: the program that is measured, a scratch folder, and times of runs.
# A script sets `bench` to its name and sources this file; it is then at the top of the repository, `txboard` is
# the built program and `work` a folder that goes when the script ends.
set -euo pipefail
export LC_ALL=C
TIMEFORMAT='%U %S'

# skip WHY: the script passes and says why it measured nothing
skip() {
    echo "$bench: skipped, $1"
    exit 0
}

# needs TOOL..: skips where one of the tools is missing
needs() {
    local tool
    for tool in "$@"; do
        command -v "$tool" >/dev/null || skip "there is no $tool"
    done
}

# timed NAME COMMAND..: runs the command, keeps its text as NAME.out and adds its seconds to NAME.times
timed() {
    local name=$1
    shift
    { time "$@" >"$work/$name.out" 2>"$work/$name.err"; } 2>>"$work/$name.times"
}

# least NAME: the least seconds of processor time of the runs
least() {
    awk '{ s = $1 + $2; if (NR == 1 || s < best) best = s }
        END { printf "%.3f", (best < 0.001 ? 0.001 : best) }' "$work/$1.times"
}

# failed WHAT WHY: the script fails
failed() {
    echo "FAILED $1: $2"
    exit 1
}

# interpreter: makes the plain C interpreter and the images of the loops
interpreter() {
    gcc -O2 -std=gnu11 -Wall -Wextra -o "$work/hart" bench/hart.c
    python3 bench/loops.py "$work"
}

cd "$(dirname "${BASH_SOURCE[0]}")/.."
txboard=$PWD/crates/txboard/out/txboard
needs awk
[ -x "$txboard" ] || skip "the program isn't built: call ./txboard once"
work=$(mktemp -d)
trap 'rm -rf "$work"' EXIT
