"""Cases for against_binutils.sh: assembly of every RV32IM instruction and of words that may have none, and
tests of rv_decode made from the disassembler's listing of them."""

import random
import re
import sys

REGISTER = "add sub sll slt sltu xor srl sra or and mul mulh mulhsu mulhu div divu rem remu".split()
IMMEDIATE = "addi slti sltiu xori ori andi".split()
SHIFT = "slli srli srai".split()
LOAD = "lb lh lw lbu lhu".split()
STORE = "sb sh sw".split()
BRANCH = "beq bne blt bge bltu bgeu".split()
OPCODES = [0x37, 0x17, 0x6F, 0x67, 0x63, 0x03, 0x23, 0x13, 0x33, 0x73]
CASES_A_ROW = 8
WORDS = 240
CASES_A_TEST = 40


def instruction(name):
    """One instruction of the name, with any registers and immediates."""
    x = lambda: f"x{random.randrange(32)}"
    i12 = lambda: random.choice([-2048, -1, 0, 1, 2047, random.randrange(-2048, 2048)])
    if name in REGISTER:
        return f"{name} {x()}, {x()}, {x()}"
    if name in IMMEDIATE:
        return f"{name} {x()}, {x()}, {i12()}"
    if name in SHIFT:
        return f"{name} {x()}, {x()}, {random.randrange(32)}"
    if name in LOAD or name in STORE or name == "jalr":
        return f"{name} {x()}, {i12()}({x()})"
    if name in BRANCH:
        return f"{name} {x()}, {x()}, .{random.randrange(-2048, 2048) * 2:+}"
    if name == "jal":
        return f"jal {x()}, .{random.randrange(-(2**19), 2**19) * 2:+}"
    if name in ("lui", "auipc"):
        return f"{name} {x()}, {random.randrange(2**20)}"
    if name == "fence":
        some = lambda: random.choice(["i", "o", "r", "w", "rw", "io", "iorw", "ow"])
        return random.choice(["fence", "fence.tso", f"fence {some()}, {some()}"])
    return name


def assembly():
    names = ["lui", "auipc", "jal", "jalr", "fence", "ecall", "ebreak"]
    lines = [".option norvc"]
    for name in names + BRANCH + LOAD + STORE + IMMEDIATE + SHIFT + REGISTER:
        lines += [instruction(name) for _ in range(CASES_A_ROW)]
    for _ in range(WORDS):
        word = random.getrandbits(32) & ~0x7F | random.choice(OPCODES)
        if random.random() < 0.5:
            word &= 0x40FF_FFFF | random.choice([0, 0x0200_0000])
        lines.append(f".insn 0x{word:08x}")
    return lines


def signed(text):
    value = int(text, 0)
    return value - 2**32 if value >= 2**31 else value


def expected(address, name, operands):
    """The instruction of a line of the listing, or none where it has no row of RV32IM."""
    o = operands.split(",") if operands else []
    x = lambda k: o[k].lstrip("x")
    variant = "Instr::" + name.capitalize()
    if name in REGISTER:
        return f"{variant} {{ rd: {x(0)}, rs1: {x(1)}, rs2: {x(2)} }}"
    if name in IMMEDIATE:
        return f"{variant} {{ rd: {x(0)}, rs1: {x(1)}, imm: {signed(o[2])} }}"
    if name in SHIFT:
        # the disassembler lists amounts of six bits, which RV64 alone has
        if int(o[2], 0) >= 32:
            return None
        return f"{variant} {{ rd: {x(0)}, rs1: {x(1)}, amount: {int(o[2], 0)} }}"
    if name in LOAD or name in STORE or name == "jalr":
        offset, base = re.fullmatch(r"(-?\d+)\(x(\d+)\)", o[1]).groups()
        if name in STORE:
            return f"{variant} {{ rs1: {base}, rs2: {x(0)}, imm: {offset} }}"
        return f"{variant} {{ rd: {x(0)}, rs1: {base}, imm: {offset} }}"
    if name in BRANCH or name == "jal":
        distance = (int(o[-1].split()[0], 16) - address) % 2**32
        distance = distance - 2**32 if distance >= 2**31 else distance
        if name == "jal":
            return f"{variant} {{ rd: {x(0)}, imm: {distance} }}"
        return f"{variant} {{ rs1: {x(0)}, rs2: {x(1)}, imm: {distance} }}"
    if name in ("lui", "auipc"):
        return f"{variant} {{ rd: {x(0)}, imm: {signed(hex(int(o[1], 0) << 12))} }}"
    if name == "fence":
        bits = lambda text: sum({"i": 8, "o": 4, "r": 2, "w": 1}[c] for c in text)
        return f"{variant} {{ rd: 0, rs1: 0, imm: {bits(o[0]) * 16 + bits(o[1])} }}"
    if name == "fence.tso":
        return f"Instr::Fence {{ rd: 0, rs1: 0, imm: {0x833 - 0x1000} }}"
    if name in ("ecall", "ebreak"):
        return variant
    return None


def tests(listing):
    cases = []
    for line in listing:
        match = re.match(r"\s*([0-9a-f]+):\s+([0-9a-f]{8})\s+(\S+)\s*(.*?)\s*(?:#.*)?$", line)
        if match:
            address, word, name, operands = match.groups()
            want = expected(int(address, 16), name, operands)
            cases.append(f"    expect(rt, 0x{word}, {'None' if want is None else f'Some({want})'});")
    print("//! Words and what the disassembler of binutils says that they are.\n")
    print("use crate::{Instr, decode, encode};\nuse std::process::Abort;\n")
    print("fn expect(rt: &impl Abort, word: u32, want: Option<Instr>) {")
    print('    assert_eq!(rt; decode(word), want, "at {word:x}");')
    print("    if let Some(i) = want {")
    print('        assert_eq!(rt; encode(i), word, "at {word:x}");\n    }\n}')
    for k in range(0, len(cases), CASES_A_TEST):
        print(f"\n#[test]\nfn cases_{k}(rt: HostRuntime) {{\n    let rt = &rt;")
        print("\n".join(cases[k : k + CASES_A_TEST]))
        print("}")


if __name__ == "__main__":
    if sys.argv[1] == "assembly":
        random.seed(int(sys.argv[2]))
        print("\n".join(assembly()))
    else:
        tests(sys.stdin)
