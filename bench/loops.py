#!/usr/bin/env python3
"""Writes images into a folder: loops.py FOLDER. Four are loops that run for ever; of three others 1, 16 and 250 threads sleep."""
import pathlib
import struct
import sys

# The preamble of examples/images.py, with more data.
HEAD = [0x4D4F4455, 6, 0, 32, 1, 3, 128, 128, 0, 10, 256, 0, 0, 0]
DATA_SIZE = 4096

# Registers: gp is the base of the data; the others are named by their use below.
ZERO, GP, A, B, C, D, E, F = 0, 3, 5, 6, 7, 28, 29, 30


def register(funct7, funct3, rd, rs1, rs2):
    """An operation of two registers."""
    return funct7 << 25 | rs2 << 20 | rs1 << 15 | funct3 << 12 | rd << 7 | 0x33


def immediate(funct3, rd, rs1, imm):
    """An operation of a register and an immediate."""
    return (imm & 0xFFF) << 20 | rs1 << 15 | funct3 << 12 | rd << 7 | 0x13


def load(funct3, rd, rs1, imm):
    return (imm & 0xFFF) << 20 | rs1 << 15 | funct3 << 12 | rd << 7 | 0x03


def store(funct3, rs2, rs1, imm):
    return (imm >> 5 & 0x7F) << 25 | rs2 << 20 | rs1 << 15 | funct3 << 12 | (imm & 0x1F) << 7 | 0x23


def branch(funct3, rs1, rs2, imm):
    return (
        (imm >> 12 & 1) << 31 | (imm >> 5 & 0x3F) << 25 | rs2 << 20 | rs1 << 15
        | funct3 << 12 | (imm >> 1 & 0xF) << 8 | (imm >> 11 & 1) << 7 | 0x63
    )


def jump(rd, imm):
    """JAL."""
    return (
        (imm >> 20 & 1) << 31 | (imm >> 1 & 0x3FF) << 21 | (imm >> 11 & 1) << 20
        | (imm >> 12 & 0xFF) << 12 | rd << 7 | 0x6F
    )


def upper(rd, imm):
    """LUI."""
    return imm << 12 | rd << 7 | 0x37


def addi(rd, rs1, imm):
    return immediate(0, rd, rs1, imm)


def looped(before, body):
    """Code that runs the body again and again, by a branch that is always taken."""
    return before + body + [branch(0, ZERO, ZERO, -4 * len(body))]


# Sums, exclusive ors and shifts of three registers: a counter, and two that are mixed with it.
ARITHMETIC = looped(
    [upper(B, 0x9E378), addi(B, B, -1607)],
    [
        addi(A, A, 1),
        register(0x00, 0, C, C, A),  # add
        immediate(1, D, C, 13),  # slli
        register(0x00, 4, C, C, D),  # xor
        immediate(5, D, C, 17),  # srli
        register(0x00, 4, C, C, D),  # xor
        immediate(1, D, C, 5),  # slli
        register(0x00, 4, C, C, D),  # xor
        register(0x00, 0, E, E, C),  # add
        register(0x20, 0, F, E, B),  # sub
        branch(1, A, ZERO, 4),  # bne to the next instruction
    ],
)

# A walk over 2,048 bytes of the data: a word is loaded, changed and stored, and a half and a byte beside it.
MEMORY = looped(
    [],
    [
        register(0x00, 0, B, GP, A),  # add: the address
        load(2, C, B, 0),  # lw
        addi(C, C, 3),
        store(2, C, B, 0),  # sw
        load(1, D, B, 2),  # lh
        store(1, D, B, 1024),  # sh
        load(4, E, B, 1),  # lbu
        store(0, E, B, 1027),  # sb
        register(0x00, 0, F, F, E),  # add
        addi(A, A, 4),
        immediate(7, A, A, 1020),  # andi
    ],
)

# Products and quotients of a counter and a mixed register.
DIVISION = looped(
    [upper(B, 0x0019F), addi(B, B, 1549), addi(C, ZERO, 1)],
    [
        addi(A, A, 7),
        register(1, 0, C, C, B),  # mul
        register(0x00, 0, C, C, A),  # add
        register(1, 3, D, C, B),  # mulhu
        register(1, 1, E, C, B),  # mulh
        register(1, 5, F, C, A),  # divu
        register(1, 7, D, C, A),  # remu
        register(1, 4, E, C, A),  # div
        register(1, 6, D, C, A),  # rem
        register(0x00, 4, C, C, F),  # xor
    ],
)

# A counter in the data: it is loaded, raised and stored.
COUNTING = [
    load(2, B, GP, 8),  # lw
    addi(B, B, 1),
    store(2, B, GP, 8),  # sw
    jump(ZERO, -12),
]

CALL = 0x00000073  # ecall
A0, A1, A2, A7, LEFT = 10, 11, 12, 17, 9


def call(number):
    return [addi(A7, ZERO, number), CALL]


def sleepers(number):
    """Makes so many threads, each of which sleeps for the most ticks as soon as it is made, and completes.

    All threads begin at one entry, and a thread that is made has the input 1. They have one stack, which they don't use.
    """
    # the block of a thread at 16 of the data: entry, input, stack, size, priority, threshold, time slice, started at once
    prepared = [
        addi(LEFT, ZERO, number),
        addi(A, ZERO, 1), addi(B, GP, 64), addi(C, ZERO, 64),
        store(2, A0, GP, 16), store(2, A, GP, 20), store(2, B, GP, 24), store(2, C, GP, 28),
        store(2, A, GP, 32), store(2, A, GP, 36), store(2, ZERO, GP, 40), store(2, A, GP, 44),
    ]
    made = [
        addi(A0, ZERO, 1), addi(A1, GP, 0), *call(0x01),  # object_allocate
        load(2, A0, GP, 0), addi(A1, ZERO, 0), addi(A2, GP, 16), *call(0x10),  # thread_create
        addi(LEFT, LEFT, -1),
    ]
    made += [branch(1, LEFT, ZERO, -4 * len(made))]  # bne
    start = [*prepared, *made, *call(0x1F)]  # thread_complete
    return [branch(1, A1, ZERO, 4 * len(start) + 4), *start, addi(A0, ZERO, -1), *call(0x15)]  # thread_sleep


LOOPS = {"counting": COUNTING, "arithmetic": ARITHMETIC, "memory": MEMORY, "division": DIVISION}
SLEEPERS = {f"sleepers{number}": sleepers(number) for number in (1, 16, 250)}


def image(code):
    """The bytes of an image with this code after its preamble."""
    words = HEAD + [128 + 4 * len(code), DATA_SIZE] + 16 * [0] + code
    return struct.pack(f"<{len(words)}I", *words)


if __name__ == "__main__":
    if len(sys.argv) != 2:
        sys.exit("usage: loops.py FOLDER")
    for name, code in {**LOOPS, **SLEEPERS}.items():
        (pathlib.Path(sys.argv[1]) / f"{name}.img").write_bytes(image(code))
