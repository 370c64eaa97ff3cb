#!/usr/bin/env python3
"""The image that a compiler makes: its numbers, its preamble, and what it must leave in registers.

compiled.py numbers      writes the header with the numbers that are to be sorted
compiled.py image START  wraps the flat code on standard input; START is the start entry's address
compiled.py agree CALL   compares the text of `hart` on standard input; CALL is its ECALL's address
"""
import random
import struct
import sys
import zlib

COUNT = 128
BASE = 0x80000000
CODE_SIZE = 4096
DATA_SIZE = 4096
STACK = 4096
CHECK = 0xCBF43926  # the published check value of CRC-32, for "123456789"


def numbers():
    """Edges of a signed word, some of them twice, and random ones between."""
    edges = [0, -1, 1, -2**31, 2**31 - 1, 0, -1, -2**31]
    some = random.Random(1)
    drawn = edges + [some.getrandbits(32) - 2**31 for _ in range(COUNT - len(edges))]
    some.shuffle(drawn)
    return drawn


def image(code, start):
    """The bytes of an image with this code after its preamble."""
    head = [0x4D4F4455, 6, 0, 32, 1, 3, 128, start - BASE, 0, 10, STACK, 0, 0, 0, CODE_SIZE, DATA_SIZE]
    return (struct.pack("<32I", *head, *16 * [0]) + code).ljust(CODE_SIZE, b"\0")


def due():
    """x2, x3 and x10 to x14 at the end."""
    word = 2**32
    ordered = sorted(numbers())
    halves = struct.unpack(f"<{2 * COUNT}h", struct.pack(f"<{COUNT}i", *ordered))
    products = quotients = 0
    for k in range(1, COUNT):
        a, b = ordered[k - 1], ordered[k]
        products = (products + (a * b >> 32)) % word
        products ^= (a % word) * (b % word) >> 32
        products = (products + halves[k]) % word
        divisor = b >> 20 | 2
        divisor = 3 if divisor == -1 else divisor
        quotient = abs(a) // abs(divisor) * (1 if (a < 0) == (divisor < 0) else -1)
        quotients = (quotients + quotient) % word
        quotients ^= (a - quotient * divisor) % word
        quotients = (quotients + (a % word) // (divisor % word)) % word
        quotients ^= (a % word) % (divisor % word)
    return {
        "x2": BASE + CODE_SIZE + DATA_SIZE + STACK,
        "x3": BASE + CODE_SIZE,
        "x10": CHECK,
        "x11": zlib.crc32(struct.pack(f"<{COUNT}i", *ordered)),
        "x12": 1,
        "x13": products,
        "x14": quotients,
    }


def differences(text, call):
    """What differs in the text of `hart`, a line each."""
    lines = text.splitlines()
    if len(lines) != 3 or not lines[2].startswith("regs "):
        return [f"it wrote {text[:200]!r}"]
    found = []
    if lines[0].split()[3:] != ["end", "call"]:
        found.append(f"it ended by {lines[0]!r}, due is a call")
    if lines[1] != f"pc {call:08x}":
        found.append(f"it ended at {lines[1]!r}, due is {call:08x}")
    regs = lines[2].split()
    for name, value in due().items():
        if regs[int(name[1:])] != f"{value:08x}":
            found.append(f"{name} is {regs[int(name[1:])]}, due is {value:08x}")
    return found


def main():
    what, *words = sys.argv[1:]
    if what == "numbers":
        print(f"#define COUNT {COUNT}")
        print("#define NUMBERS", ", ".join(f"(int)0x{n % 2**32:08x}u" for n in numbers()))
    elif what == "image":
        sys.stdout.buffer.write(image(sys.stdin.buffer.read(), int(words[0], 16)))
    elif what == "agree":
        found = differences(sys.stdin.read(), int(words[0], 16))
        for line in found:
            print(line)
        sys.exit(1 if found else 0)


main()
