#!/bin/bash
# Compares rv_decode with binutils: assembles a few hundred instructions and words, reads the disassembler's
# listing of them, and runs decode and encode against it, on a copy of the repository, with no proof.
# Not a part of the gate. It says "skipped" and passes where a tool is missing:
# apt-get install binutils-riscv64-unknown-elf
set -euo pipefail
cd "$(dirname "$0")/.."

prefix=riscv64-unknown-elf
for tool in "$prefix-as" "$prefix-objdump" python3 rt; do
    if ! command -v "$tool" >/dev/null; then
        echo "against_binutils: skipped, there is no $tool"
        exit 0
    fi
done

seed="${1:-1}"
scratch=$(mktemp -d)
trap 'rm -rf "$scratch"' EXIT

python3 tests/binutils_cases.py assembly "$seed" >"$scratch/cases.s"
"$prefix-as" -march=rv32im -mabi=ilp32 -o "$scratch/cases.o" "$scratch/cases.s"
"$prefix-objdump" -d -M no-aliases,numeric "$scratch/cases.o" >"$scratch/listing"

mkdir -p "$scratch/copy/crates"
cp crates.txt HANDLES "$scratch/copy/"
for crate in machine_words rv_decode; do
    mkdir "$scratch/copy/crates/$crate"
    for part in src specs proofs; do
        if [ -d "crates/$crate/$part" ]; then
            cp -r "crates/$crate/$part" "$scratch/copy/crates/$crate/"
        fi
    done
done
printf 'machine_words:\nrv_decode: machine_words\n' >"$scratch/copy/crates.txt"

cd "$scratch/copy/crates/rv_decode"
python3 "$OLDPWD/tests/binutils_cases.py" tests <"$scratch/listing" >src/tests.rt
rt try --test >"$scratch/run" 2>&1 || {
    grep -v '^logic\|^statements' "$scratch/run"
    echo "against_binutils: the listings differ (seed $seed)"
    exit 1
}
grep '^test result' "$scratch/run"
echo "against_binutils: the same for $(grep -c '^    expect(' src/tests.rt) words (seed $seed)"
