#!/usr/bin/env python3
"""Writes a session at the limits of a board into a folder: board.toml, its images, log and expected.

limits.py FOLDER

Sixteen modules, sixteen devices and sixteen shows of 64 words in the least RAM that holds them, and a log of 65,536 interrupts
with steps before each and after the last. What it must print is computed here from what the modules do, and not from their
code: module 0 counts and suspends itself, and every other device resumes it; the others count and give way, in turn.
"""
import pathlib
import struct
import sys

MODULES = DEVICES = SHOWS = 16
INTERRUPTS = 65536
DATA, STACK = 256, 64
PRIORITIES = [5] + 15 * [10]
LW, ADDI, SW, CALL = 0x0001A303, 0x00030313, 0x0061A023, 0x00000073  # of x6, and x3 as base
SUSPEND, RELINQUISH, IDENTIFY = 0x13, 0x16, 0x17


def number(service):
    """ADDI x17,x0,service."""
    return service << 20 | 0x00000893


def back(instructions):
    """JAL x0 to the instruction that many before."""
    offset = -4 * instructions
    return (offset >> 20 & 1) << 31 | (offset >> 1 & 0x3FF) << 21 | (offset >> 11 & 1) << 20 | (offset >> 12 & 0xFF) << 12 | 0x6F


def code(module):
    """Adds module + 1 to the word of the module's own number; then gives way, or suspends itself."""
    adds = [LW | 4 * module << 20, ADDI | module + 1 << 20, SW | (4 * module & 31) << 7 | (4 * module >> 5) << 25]
    ends = [number(IDENTIFY), CALL, number(SUSPEND), CALL] if module == 0 else [number(RELINQUISH), CALL]
    return [*adds, *ends, back(len(adds) + len(ends))]


def image(module):
    words = code(module)
    head = [0x4D4F4455, 6, 0, 32, module, 3, 128, 128, 0, PRIORITIES[module], STACK, 0, 0, 0, 128 + 4 * len(words), DATA]
    return struct.pack(f"<{32 + len(words)}I", *head, *16 * [0], *words)


def board():
    # 160 bytes of code, or 152 up to the next multiple of 32, and then the data region
    text = [f"ram = {MODULES * (160 + DATA + STACK)}", "steps = 0"]
    for k in range(MODULES):
        text += ["[[module]]", f'name = "m{k}"', f'image = "m{k}.img"', "start = true"]
    for k in range(DEVICES):
        text += ["[[device]]", f'name = "d{k}"', 'action = "resume"', f'target = "{target(k)}"', "script = []"]
    for k in range(SHOWS):
        text += ["[[show]]", f'module = "m{k}"', "offset = 0", f"words = {DATA // 4}"]
    return text


def target(device):
    return "none" if device % 2 else "start"


class Thread:
    """The one thread of a module: how far it is in its turn, its word of data and the registers that it changes."""

    def __init__(self, module):
        self.module, self.at, self.word = module, 0, 0
        self.base = 0x80000000 + module * (160 + DATA + STACK)
        self.entry, self.data = self.base + 128, self.base + 160
        self.x = {2: self.data + DATA + STACK, 3: self.data, 10: self.entry}
        self.is_ready = True

    def step(self):
        """One instruction of its turn; whether it gave way by it."""
        at, last, gives_way = self.at, len(code(self.module)) - 1, False
        if at == 0:
            self.x[6] = self.word
        elif at == 1:
            self.x[6] = (self.x[6] + self.module + 1) % 2**32
        elif at == 2:
            self.word = self.x[6]
        elif at == 3:
            self.x[17] = IDENTIFY if self.module == 0 else RELINQUISH
        elif at == 4:
            self.x[10] = 0x100 if self.module == 0 else 0
            gives_way = self.module != 0
        elif at == 5 and self.module == 0:
            self.x[17] = SUSPEND
        elif at == 6:
            self.x[10], self.is_ready = 0, False
        self.at = 0 if at == last else at + 1
        return gives_way

    def lines(self):
        k, own = self.module, PRIORITIES[self.module]
        state = 0 if self.is_ready else 3
        yield (f"thread {k} module {k} start state {state} priority {own} {own} threshold {own} {own} slice 0 0 "
               f"pc {self.entry + 4 * self.at:08x}")
        yield "regs " + " ".join(f"{self.x.get(r, 0):08x}" for r in range(1, 32))

    def show(self):
        words = [self.word if k == self.module else 0 for k in range(DATA // 4)]
        return f"show {self.module} " + " ".join(f"{it:08x}" for it in words)


def main(folder):
    threads = [Thread(k) for k in range(MODULES)]
    turns = threads[1:]
    log, steps, taken, last = [], 0, DEVICES * [0], DEVICES * [0]

    def make_steps(count):
        log.append(f"S {count}")
        for _ in range(count):
            if threads[0].is_ready:
                threads[0].step()
            elif turns[0].step():
                turns.append(turns.pop(0))
        return count

    for k in range(INTERRUPTS):
        steps += make_steps(1 + k % 13)
        device = k * 7 % DEVICES
        log.append(f"I {device} {k * 40503 % 2**32:08x}")
        taken[device] += 1
        if target(device) == "none":
            last[device] = 0x0E
        else:
            last[device] = 0x12 if threads[0].is_ready else 0
            threads[0].is_ready = True
    steps += make_steps(5)

    ready = [it.module for it in [*[threads[0]] * threads[0].is_ready, *turns]]
    report = ["report", f"events steps {steps} irqs {INTERRUPTS} ticks 0 clock 0", f"running {ready[0]}", "held",
              "ready " + " ".join(map(str, ready)),
              "waits begun 0 satisfied 0 timedout 0 aborted 0 deleted 0 gone 0"]
    report += [f"module {k} m{k} state 1 queued 0 dropped 0" for k in range(MODULES)]
    report += [line for it in threads for line in it.lines()]
    report += [f"device {k} d{k} taken {taken[k]} last {last[k]:02x}" for k in range(DEVICES)]
    report += [it.show() for it in threads] + ["end"]

    folder = pathlib.Path(folder)
    folder.mkdir(exist_ok=True)
    for k in range(MODULES):
        (folder / f"m{k}.img").write_bytes(image(k))
    for name, lines in (("board.toml", board()), ("log", log), ("expected", log + report)):
        (folder / name).write_text("".join(f"{line}\n" for line in lines))


main(sys.argv[1])
