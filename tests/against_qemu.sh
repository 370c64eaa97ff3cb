#!/bin/bash
# Compares the execution of instructions with qemu's: random RV32IM programs, packed into one static executable
# a seed, are run by qemu's user mode, and by `burst` over guarded memory as a scratch program on a copy of the
# repository, with no proof. What all programs left in registers and buffers must be the same.
# Not a part of the gate. It says "skipped" and passes where a tool is missing:
# apt-get install binutils-riscv64-unknown-elf qemu-user
# Usage: against_qemu.sh [FIRST_SEED [SEEDS [PROGRAMS_A_SEED]]]
set -euo pipefail
cd "$(dirname "$0")/.."

prefix=riscv64-unknown-elf
for tool in "$prefix-as" "$prefix-ld" "$prefix-objcopy" qemu-riscv32 python3 rt; do
    if ! command -v "$tool" >/dev/null; then
        echo "against_qemu: skipped, there is no $tool"
        exit 0
    fi
done

first="${1:-1}"
seeds="${2:-2}"
programs="${3:-1200}"
cases=$PWD/tests/qemu_cases.py
scratch=$(mktemp -d)
trap 'rm -rf "$scratch"' EXIT

mkdir -p "$scratch/copy/crates/hart_alone/src"
cp HANDLES "$scratch/copy/"
for crate in board_core $(sed -n 's/^board_core: //p' crates.txt); do
    mkdir "$scratch/copy/crates/$crate"
    for part in src specs proofs; do
        if [ -d "crates/$crate/$part" ]; then
            cp -r "crates/$crate/$part" "$scratch/copy/crates/$crate/"
        fi
    done
    grep "^$crate:" crates.txt >>"$scratch/copy/crates.txt"
done
echo "hart_alone: rv_core tx_types flat_ram region_guard board_core anyhow" >>"$scratch/copy/crates.txt"

# The image lies at the start of RAM, code first and data from 2 MiB on. It is run up to its first call.
cat >"$scratch/copy/crates/hart_alone/src/main.rt" <<'PROGRAM'
#![tactic(auto)]

use anyhow::{Result, anyhow, ensure};
use board_core::{BurstEnd, burst};
use flat_ram::Ram;
use region_guard::{Access, Guard, RAM_BASE, Region, Rights};
use rv_core::Hart;
use std::fs;
use tx_types::ModNo;

const CODE: u32 = 0x20_0000;
/// The words of a program in the data: from where on they are printed, and how many there are.
const PRINTED: u32 = 31;
const WORDS: u32 = 78;

fn main(rt: HostRuntime) -> Result<()> {
    let image = fs::read(&rt, "image")?;
    let size = image.len() as u32;
    let mut ram = Ram::new(rt.alloc(), size).map_err(|_| anyhow!("memory"))?;
    ram.copy_in(0, &image);
    let mut guard = Guard::new(rt.alloc(), ram).map_err(|_| anyhow!("memory"))?;
    let module = ModNo::new(0);
    let code = Region { base: RAM_BASE, size: CODE, rights: Rights::Code, who: 1 };
    let data = Region { base: RAM_BASE + CODE, size: size - CODE, rights: Rights::ReadWrite, who: 1 };
    ensure!(guard.add(code).is_ok() && guard.add(data).is_ok(), "regions");
    let mut hart = Hart { pc: RAM_BASE, x: [0; 32] };
    let BurstEnd { done, out } = burst(&mut hart, &mut guard, module, 100_000_000);
    let pc = hart.pc;
    println!(rt; "end {out:?} at {pc:08x} after {done}")?;
    let words = (size - CODE) / 4;
    for program in 0..words / WORDS {
        print!(rt; "program ")?;
        for k in PRINTED..WORDS {
            let a = RAM_BASE + CODE + 4 * (program * WORDS + k);
            let word = guard.get(module, Access::Load, a, 4);
            print!(rt; "{word:08x}")?;
        }
        println!(rt; "")?;
    }
    Ok(())
}
PROGRAM

for seed in $(seq "$first" $((first + seeds - 1))); do
    cd "$scratch"
    python3 "$cases" assembly "$seed" "$programs" >cases.s
    "$prefix-as" -march=rv32im -mabi=ilp32 -o cases.o cases.s
    "$prefix-ld" -m elf32lriscv --no-relax -Ttext=0x80000000 -Tdata=0x80200000 -o cases cases.o
    "$prefix-objcopy" -O binary -j .text -j .data cases image
    qemu-riscv32 ./cases | python3 "$cases" listing >theirs
    cd "$scratch/copy/crates/hart_alone"
    rt try --steps 1 --data image="$scratch/image" >"$scratch/run" 2>&1 || true
    grep '^program' "$scratch/run" >"$scratch/ours" || true
    if [ "$(wc -l <"$scratch/theirs")" -ne "$programs" ] || ! cmp -s "$scratch/theirs" "$scratch/ours"; then
        grep -v '^program\|^logic\|^statements' "$scratch/run" || true
        diff "$scratch/theirs" "$scratch/ours" | head -n 20 | cut -c 1-200 || true
        echo "against_qemu: the programs of seed $seed end differently"
        exit 1
    fi
    echo "against_qemu: seed $seed: the same after $programs programs, $(grep -o '^end .*' "$scratch/run")"
done
