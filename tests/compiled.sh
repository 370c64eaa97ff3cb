#!/usr/bin/env bash
# Compares what compiled code leaves in registers with what it must: compiled.c, by gcc at three levels, is
# wrapped as a module image and run by the proved program up to its call. The checksum of its sorted numbers
# is taken by python's zlib, that of nine digits is the published one, and python computes the other results.
# Not a part of the gate. It says "skipped" and passes where a tool is missing:
# apt-get install gcc-riscv64-unknown-elf
set -euo pipefail
cd "$(dirname "${BASH_SOURCE[0]}")/.."

prefix=riscv64-unknown-elf
for tool in "$prefix-gcc" "$prefix-objcopy" "$prefix-nm" python3; do
    if ! command -v "$tool" >/dev/null; then
        echo "compiled: skipped, there is no $tool (apt-get install gcc-riscv64-unknown-elf)"
        exit 0
    fi
done

cases=tests/compiled.py
scratch=$(mktemp -d)
trap 'rm -rf "$scratch"' EXIT
python3 "$cases" numbers >"$scratch/numbers.h"

# address NAME: where the linker put it
address() { "$prefix-nm" "$scratch/linked" | awk -v name="$1" '$3 == name { print $1 }'; }

agreed=0
for level in -O0 -O2 -Os; do
    "$prefix-gcc" -march=rv32im -mabi=ilp32 "$level" -ffreestanding -nostdlib -Wall -Wextra -Werror \
        -fno-tree-loop-distribute-patterns -I "$scratch" -T tests/compiled.ld -o "$scratch/linked" \
        tests/compiled_shell.S tests/compiled.c
    "$prefix-objcopy" -O binary "$scratch/linked" "$scratch/flat"
    python3 "$cases" image "$(address start)" <"$scratch/flat" >"$scratch/image"
    status=0
    ./txboard hart "$scratch/image" 1000000 >"$scratch/text" || status=$?
    if [ "$status" -ne 0 ]; then
        echo "compiled: $level: the program ended with status $status: $(head -c 200 "$scratch/text")"
        exit 1
    fi
    if ! python3 "$cases" agree "$(address call)" <"$scratch/text" >"$scratch/differences"; then
        sed "s/^/compiled: $level: /" "$scratch/differences"
        exit 1
    fi
    echo "compiled: $level: the same, $(head -n 1 "$scratch/text")"
    agreed=$((agreed + 1))
done
echo "compiled: $agreed programs agreed"
