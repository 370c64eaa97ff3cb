#!/usr/bin/env python3
"""Writes the smallest example images of this folder from their words."""
import pathlib
import struct

# id MODU, major, minor, preamble words, application, properties, shell, start, stop, start priority,
# start stack, callback, callback priority, callback stack, code size, data size; then sixteen words that are ignored
HEAD = [0x4D4F4455, 6, 0, 32, 1, 3, 128, 128, 0, 10, 256, 0, 0, 0]
DATA_SIZE = 64

ADDI_X5_X0_7 = 0x00700293
ECALL = 0x00000073
BEQ_X0_X0_0 = 0x00000063

IMAGES = {
    "p1.img": [ADDI_X5_X0_7],
    "p2.img": [ADDI_X5_X0_7, ECALL],
    "p2b.img": [ADDI_X5_X0_7, BEQ_X0_X0_0],
}


def image(code):
    """The bytes of an image with this code after its preamble."""
    words = HEAD + [128 + 4 * len(code), DATA_SIZE] + 16 * [0] + code
    return struct.pack(f"<{len(words)}I", *words)


if __name__ == "__main__":
    folder = pathlib.Path(__file__).parent
    for name, code in IMAGES.items():
        (folder / name).write_bytes(image(code))
