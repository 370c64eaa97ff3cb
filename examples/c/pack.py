#!/usr/bin/env python3
"""Packs a linked module as an image: its preamble and then its code.

pack.py FLAT SYMBOLS OTHER_FLAT [--priority N] [--stack BYTES] [--app N] > IMAGE

FLAT is the module's code as objcopy writes it, SYMBOLS what nm says of it, and OTHER_FLAT the same module linked
at another place. Where the two differ, the module's code depends on where it lies, and no image is written.
"""
import argparse
import struct
import sys

MODULE_ID = 0x4D4F4455
USER_MODE_AND_MEMORY_PROTECTION = 3


def symbols(path):
    table = {}
    for line in open(path):
        value, _, name = line.split()
        table[name] = int(value, 16)
    return table


def main():
    reader = argparse.ArgumentParser()
    reader.add_argument("flat")
    reader.add_argument("symbols")
    reader.add_argument("other")
    reader.add_argument("--priority", type=int, default=16)
    reader.add_argument("--stack", type=int, default=512)
    reader.add_argument("--app", type=int, default=1)
    words = reader.parse_args()
    code = open(words.flat, "rb").read()
    other = open(words.other, "rb").read()
    if code != other:
        at = next((k for k, (a, b) in enumerate(zip(code, other)) if a != b), min(len(code), len(other)))
        sys.exit(f"pack: {words.flat}: the code depends on where it lies, at offset {128 + at // 4 * 4}: "
                 "more than 2 KiB of data, or a pointer among the data's first values")
    code += b"\0" * (-len(code) % 4)
    table = symbols(words.symbols)
    base = table["shell"] - 128
    preamble = [MODULE_ID, 6, 0, 32, words.app, USER_MODE_AND_MEMORY_PROTECTION,
                128, table["module_start"] - base, 0, words.priority, words.stack, 0, 0, 0,
                128 + len(code), table["module_data_size"]]
    sys.stdout.buffer.write(struct.pack("<32I", *preamble, *16 * [0]) + code)


main()
