#!/usr/bin/env bash
# Times the calls of the tables of waits and timers where they are full, and prints the nanoseconds of each. The
# program is bench/tables.main; it stands in no crate, so it is proved and built in a repository of its own.
# Not a part of the gate. It says "skipped" and passes where `rt` is missing.
# Usage: tables.sh
set -euo pipefail
cd "$(dirname "${BASH_SOURCE[0]}")/.."
command -v rt >/dev/null || { echo "tables: skipped, there is no rt"; exit 0; }
work=$(mktemp -d)
trap 'rm -rf "$work"' EXIT
mkdir -p "$work/crates/tables/src"
cp -a crates/tx_types crates/suspend_lists crates/soft_timers "$work/crates/"
cp bench/tables.main "$work/crates/tables/src/main.rt"
printf '%s\n' 'tx_types: arrayvec itoa' 'suspend_lists: tx_types' 'soft_timers: tx_types' \
    'tables: tx_types suspend_lists soft_timers' >"$work/crates.txt"
cd "$work/crates/tables"
rt run --jobs 2 2>build || { cat build; exit 1; }
