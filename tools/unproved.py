#!/usr/bin/env python3
"""Runs the program on the words given, built at once and without any proof, for ./txboard --unproved.

`rt try` builds it from the sources as they are, with tests of indices, sums and memory while it runs, and runs it in a folder
of its own. So the files that the words name, and the images that a board names, are handed on to it.
"""
import os
import re
import subprocess
import sys

TOP = os.path.dirname(os.path.dirname(os.path.abspath(__file__)))
FILES = {"hart": [1], "check": [1], "replay": [1, 2], "run": [1]}
BOARDS = ("check", "replay", "run")
IMAGE = re.compile(rb"""\bimage\s*=\s*(["'])(.*?)\1""")
MOST_OF_A_BOARD = 65536


def images(board):
    """The names of images in a board file, as they stand; none where it can't be read."""
    try:
        with open(board, "rb") as file:
            text = file.read(MOST_OF_A_BOARD)
    except OSError:
        return []
    return [os.fsdecode(name) for _, name in IMAGE.findall(text)]


def main(words):
    places = [at for at in FILES.get(words[0] if words else "", []) if at < len(words) and words[at]]
    data = []
    for name in dict.fromkeys(images(words[1])) if places and words[0] in BOARDS else []:
        if os.path.isabs(name) or not os.path.isfile(name):
            continue
        if os.path.normpath(name).startswith("..") or "=" in name:
            print(f"txboard: --unproved can't hand on the image {name}: call it from a folder above it", file=sys.stderr)
            return 70
        data += ["--data", f"{name}={os.path.abspath(name)}"]
    for at in places:
        words[at] = os.path.abspath(words[at])
    print("txboard: NOTHING OF THIS IS PROVED. The program is built from the sources as they are (about half a minute).",
          file=sys.stderr, flush=True)
    return subprocess.call(["rt", "try", "--seconds", "600", *data, "--", *words], cwd=f"{TOP}/crates/txboard",
                           stdin=subprocess.DEVNULL)


sys.exit(main(sys.argv[1:]))
