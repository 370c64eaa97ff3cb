"""Cases for against_qemu.sh: random RV32IM programs as one static executable, and the listing of what they
left in memory.

The programs stand one after another. Each loads all its registers, executes its instructions, and stores
all its registers; one of them holds the address of its buffer throughout. Jumps and branches stay inside the
program and end, and loads and stores stay inside the buffer. After the last program one write(2) gives all
data. In the data each program has the values that its registers start from, its buffer, and the registers
that it ended with."""

import random
import struct
import sys

REGISTER = "add sub sll slt sltu xor srl sra or and mul mulh mulhsu mulhu div divu rem remu".split()
IMMEDIATE = "addi slti sltiu xori ori andi".split()
SHIFT = "slli srli srai".split()
WIDTH = {"lb": 1, "lh": 2, "lw": 4, "lbu": 1, "lhu": 2, "sb": 1, "sh": 2, "sw": 4}
BRANCH = "beq bne blt bge bltu bgeu".split()
EDGES = [0, 1, 2, 7, 31, 32, 0x7FFF_FFFF, 0x8000_0000, 0x8000_0001, 0xFFFF_FFFF, 0xFFFF_FFFE, 0xFFFF_FFF9]

DATA = 0x8020_0000
REGISTERS = 31
BUFFER = 16  # words
BLOCK = 4 * (REGISTERS + BUFFER + REGISTERS)
MIDDLE = 4 * REGISTERS + 2 * BUFFER  # of the buffer, in a block
HALF = 2 * BUFFER  # bytes


def value():
    return random.choice([*EDGES, random.getrandbits(32), random.getrandbits(32), random.getrandbits(8)])


class Program:
    """The text of one program; `kept` are the registers that its instructions don't write."""

    def __init__(self, number):
        self.number = number
        self.base = random.randrange(1, 32)
        self.kept = [self.base]
        self.labels = 0

    def label(self):
        self.labels += 1
        return f"p{self.number}_{self.labels}"

    def rd(self):
        return random.choice([r for r in range(32) if r not in self.kept])

    def address(self):
        """A register other than x0 that may be written."""
        return random.choice([r for r in range(1, 32) if r not in self.kept])

    def computing(self):
        kind = random.randrange(12)
        rd, a, b = self.rd(), random.randrange(32), random.randrange(32)
        if kind < 5:
            return [f"{random.choice(REGISTER)} x{rd}, x{a}, x{b}"]
        if kind < 7:
            immediate = random.choice([-2048, -1, 0, 1, 2047, random.randrange(-2048, 2048)])
            return [f"{random.choice(IMMEDIATE)} x{rd}, x{a}, {immediate}"]
        if kind < 8:
            return [f"{random.choice(SHIFT)} x{rd}, x{a}, {random.choice([0, 31, random.randrange(32)])}"]
        if kind < 9:
            return [f"{random.choice(['lui', 'auipc'])} x{rd}, {random.randrange(2**20)}"]
        if kind < 10:
            return [random.choice(["fence", "fence r, w", "nop"])]
        a, b = self.address(), self.address()
        return [
            f"li x{a}, {random.choice(EDGES)}",
            f"li x{b}, {random.choice(EDGES)}",
            f"{random.choice(REGISTER)} x{rd}, x{a}, x{b}",
        ]

    def memory(self):
        name = random.choice(list(WIDTH))
        width = WIDTH[name]
        moved = random.randrange(32) if name[0] == "s" else self.rd()
        if random.random() < 0.5:
            offset = random.randrange(-HALF, HALF, width)
            return [f"{name} x{moved}, {offset}(x{self.base})"]
        t = self.address()
        offset = random.randrange(0, HALF, width) - HALF
        return [
            f"andi x{t}, x{random.randrange(32)}, {HALF - width}",
            f"add x{t}, x{t}, x{self.base}",
            f"{name} x{moved}, {offset}(x{t})",
        ]

    def straight(self):
        return self.memory() if random.random() < 0.35 else self.computing()

    def body(self, register):
        """A few instructions that don't write a register."""
        self.kept.append(register)
        lines = [line for _ in range(random.randrange(1, 5)) for line in self.straight()]
        self.kept.pop()
        return lines

    def loop(self):
        counter, back = self.address(), self.label()
        return [
            f"addi x{counter}, x0, {random.randrange(1, 6)}",
            f"{back}:",
            *self.body(counter),
            f"addi x{counter}, x{counter}, -1",
            f"{random.choice(['bne', 'blt', 'bltu'])} x0, x{counter}, {back}",
        ]

    def call(self):
        link, called, over = self.address(), self.label(), self.label()
        return [
            f"jal x{link}, {called}",
            f"jal x{self.rd() if random.random() < 0.5 else 0}, {over}",
            f"{called}:",
            *self.body(link),
            f"jalr x{random.choice([0, link])}, {random.choice([0, 1])}(x{link})",
            f"{over}:",
        ]

    def jump(self, target):
        kind = random.randrange(4)
        if kind < 2:
            return [f"{random.choice(BRANCH)} x{random.randrange(32)}, x{random.randrange(32)}, {target}"]
        if kind < 3:
            return [f"jal x{self.rd()}, {target}"]
        t, here = self.address(), self.label()
        link = random.choice([t, self.rd()])
        odd = random.choice(["", " + 1"])
        return [
            f"{here}: auipc x{t}, 0",
            f".set {here}_far, {target} - {here}{odd}",
            f"jalr x{link}, %lo({here}_far)(x{t})",
        ]

    def text(self):
        address = DATA + self.number * BLOCK + MIDDLE
        upper = (address + 0x800) >> 12
        low = address - (upper << 12)
        saved = [r for r in range(1, 32) if r != self.base]
        lines = [f"lui x{self.base}, {upper}", f"addi x{self.base}, x{self.base}, {low}"]
        lines += [f"lw x{r}, {4 * (r - 1) - MIDDLE}(x{self.base})" for r in saved]
        groups = random.randrange(10, 25)
        for group in range(groups):
            lines.append(f"p{self.number}_g{group}:")
            kind = random.random()
            if kind < 0.15:
                lines += self.jump(f"p{self.number}_g{random.randrange(group + 1, min(group + 6, groups) + 1)}")
            elif kind < 0.2:
                lines += self.loop()
            elif kind < 0.25:
                lines += self.call()
            else:
                lines += self.straight()
        lines.append(f"p{self.number}_g{groups}:")
        return lines + [f"sw x{r}, {HALF + 4 * (r - 1)}(x{self.base})" for r in range(1, 32)]


def assembly(count):
    lines = [".option norvc", ".option norelax", ".text", ".globl _start", "_start:"]
    for number in range(count):
        lines += Program(number).text()
    lines += ["li a0, 1", f"li a1, {DATA}", f"li a2, {count * BLOCK}", "li a7, 64", "ecall"]
    lines += ["li a0, 0", "li a7, 93", "ecall", ".data"]
    for _ in range(count):
        words = [value() for _ in range(REGISTERS + BUFFER)] + [0] * REGISTERS
        lines.append(".word " + ", ".join(map(str, words)))
    return lines


def listing(data):
    """A line a program: its buffer, then its registers from x1 on."""
    for start in range(0, len(data), BLOCK):
        words = struct.unpack(f"<{BLOCK // 4}I", data[start : start + BLOCK])
        yield "program " + "".join(f"{word:08x}" for word in words[REGISTERS:])


if sys.argv[1] == "assembly":
    random.seed(sys.argv[2])
    print("\n".join(assembly(int(sys.argv[3]))))
else:
    print("\n".join(listing(sys.stdin.buffer.read())))
