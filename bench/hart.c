/*
 * A plain interpreter of the machine of `txboard hart`, to compare speed and text: hart IMAGE N.
 *
 * It shares no code with the program and nothing in it is proved. It reads one module image, lays it alone
 * at the start of RAM as module 0, executes at most N instructions of RV32IM and prints the same three
 * lines. Each fetch, load and store is tested against the list of regions, and each word is decoded when it
 * is executed. Formats, immediates and operations are those of the RISC-V Unprivileged ISA Manual, the base
 * instruction set RV32I and the extension M.
 */
#include <stdbool.h>
#include <stdint.h>
#include <stdio.h>
#include <stdlib.h>
#include <string.h>

enum {
    RAM_SIZE = 4194304,
    MOST_IMAGE = 1048576,
    MOST_DATA = 1048576,
    MOST_STEPS = 100000000,
    MOST_REGIONS = 64,
    PREAMBLE = 128,
    MODULE = 0
};
#define RAM_BASE 0x80000000u

/* How an address is used, and the rights that a region gives. */
enum access { FETCH = 1, LOAD = 2, STORE = 4 };

/* The `size` addresses from `base` on. Bit m of `who` says that module m has the rights. */
struct region {
    uint32_t base, size;
    uint16_t rights, who;
};

struct machine {
    uint32_t pc, x[32];
    uint8_t *ram;
    struct region regions[MOST_REGIONS];
    unsigned count;
};

/* How a step ends: DONE, CALL, or a fault; the number of its cause is the value less FAULT. */
enum out {
    DONE,
    CALL,
    FAULT,
    FETCH_MISALIGNED = FAULT,
    FETCH_OUTSIDE,
    ILLEGAL,
    BREAKPOINT,
    LOAD_MISALIGNED,
    LOAD_OUTSIDE,
    STORE_MISALIGNED,
    STORE_OUTSIDE
};

/* ---- Memory */

/* Whether one region lets the module use the n addresses from a on. */
static inline bool may(const struct machine *m, enum access access, uint32_t a, uint32_t n)
{
    for (unsigned i = 0; i < m->count; i++) {
        const struct region *r = &m->regions[i];
        uint32_t into = a - r->base;
        if (into < r->size && n <= r->size - into && (r->rights & access) && (r->who >> MODULE & 1))
            return true;
    }
    return false;
}

/* A number of several bytes lies with its lowest byte first; gcc makes one access of each of these. */
static inline uint32_t number_at(const uint8_t *at, uint32_t n)
{
    switch (n) {
    case 1: return at[0];
    case 2: return at[0] | (uint32_t)at[1] << 8;
    default: return at[0] | (uint32_t)at[1] << 8 | (uint32_t)at[2] << 16 | (uint32_t)at[3] << 24;
    }
}

static inline void put_number(uint8_t *at, uint32_t n, uint32_t value)
{
    switch (n) {
    case 1: at[0] = value; break;
    case 2: at[0] = value, at[1] = value >> 8; break;
    default:
        at[0] = value, at[1] = value >> 8, at[2] = value >> 16, at[3] = value >> 24;
    }
}

static inline enum out load(const struct machine *m, uint32_t a, uint32_t n, uint32_t *value)
{
    if (a % n != 0)
        return LOAD_MISALIGNED;
    if (!may(m, LOAD, a, n))
        return LOAD_OUTSIDE;
    *value = number_at(m->ram + (a - RAM_BASE), n);
    return DONE;
}

static inline enum out store(struct machine *m, uint32_t a, uint32_t n, uint32_t value)
{
    if (a % n != 0)
        return STORE_MISALIGNED;
    if (!may(m, STORE, a, n))
        return STORE_OUTSIDE;
    put_number(m->ram + (a - RAM_BASE), n, value);
    return DONE;
}

/* ---- Fields and immediates, as the instruction formats place them */

static unsigned rd(uint32_t w) { return w >> 7 & 31; }
static unsigned funct3(uint32_t w) { return w >> 12 & 7; }
static unsigned funct7(uint32_t w) { return w >> 25; }
static uint32_t i_imm(uint32_t w) { return (uint32_t)((int32_t)w >> 20); }
static uint32_t s_imm(uint32_t w) { return (uint32_t)((int32_t)w >> 25 << 5) | (w >> 7 & 31); }
static uint32_t b_imm(uint32_t w)
{
    return (uint32_t)((int32_t)w >> 31 << 12) | (w >> 7 & 1) << 11 | (w >> 25 & 63) << 5 | (w >> 8 & 15) << 1;
}
static uint32_t j_imm(uint32_t w)
{
    return (uint32_t)((int32_t)w >> 31 << 20) | (w & 0xff000) | (w >> 20 & 1) << 11 | (w >> 21 & 1023) << 1;
}

/* ---- Operations */

/* Operations of two registers or a register and an immediate, by funct3; `other` is SUB or SRA. */
static inline uint32_t operation(unsigned funct3, bool other, uint32_t a, uint32_t b)
{
    switch (funct3) {
    case 0: return other ? a - b : a + b;
    case 1: return a << (b & 31);
    case 2: return (int32_t)a < (int32_t)b;
    case 3: return a < b;
    case 4: return a ^ b;
    case 5: return other ? (uint32_t)((int32_t)a >> (b & 31)) : a >> (b & 31);
    case 6: return a | b;
    default: return a & b;
    }
}

/* M: a division by zero gives all ones, and the dividend as remainder; the one overflow gives the dividend,
   and no remainder. */
static inline uint32_t multiplication(unsigned funct3, uint32_t a, uint32_t b)
{
    int64_t sa = (int32_t)a, sb = (int32_t)b;
    bool overflows = a == 0x80000000u && b == 0xffffffffu;
    switch (funct3) {
    case 0: return a * b;
    case 1: return (uint32_t)((uint64_t)(sa * sb) >> 32);
    case 2: return (uint32_t)((uint64_t)(sa * (int64_t)b) >> 32);
    case 3: return (uint32_t)((uint64_t)a * b >> 32);
    case 4: return b == 0 ? 0xffffffffu : overflows ? a : (uint32_t)((int32_t)a / (int32_t)b);
    case 5: return b == 0 ? 0xffffffffu : a / b;
    case 6: return b == 0 ? a : overflows ? 0 : (uint32_t)((int32_t)a % (int32_t)b);
    default: return b == 0 ? a : a % b;
    }
}

/* ---- One step */

/* Writes a register and goes to the next instruction; a write to x0 is dropped. */
static inline enum out put(struct machine *m, unsigned rd, uint32_t value)
{
    if (rd != 0)
        m->x[rd] = value;
    m->pc += 4;
    return DONE;
}

static inline enum out jump(struct machine *m, unsigned rd, uint32_t target)
{
    if (target % 4 != 0)
        return FETCH_MISALIGNED;
    if (rd != 0)
        m->x[rd] = m->pc + 4;
    m->pc = target;
    return DONE;
}

/* The values of the two registers that a word reads. */
static uint32_t rs1(const struct machine *m, uint32_t w) { return m->x[w >> 15 & 31]; }
static uint32_t rs2(const struct machine *m, uint32_t w) { return m->x[w >> 20 & 31]; }

/* Executes the instruction at pc. After a call or a fault nothing has changed. */
static inline enum out step(struct machine *m)
{
    if (!may(m, FETCH, m->pc, 4))
        return FETCH_OUTSIDE;
    uint32_t w = number_at(m->ram + (m->pc - RAM_BASE), 4);
    uint32_t value = 0;
    enum out out;
    bool taken;

    switch (w & 127) {
    case 0x37: /* LUI */
        return put(m, rd(w), w & 0xfffff000);
    case 0x17: /* AUIPC */
        return put(m, rd(w), m->pc + (w & 0xfffff000));
    case 0x6f: /* JAL */
        return jump(m, rd(w), m->pc + j_imm(w));
    case 0x67: /* JALR clears bit 0 of its target */
        return funct3(w) == 0 ? jump(m, rd(w), (rs1(m, w) + i_imm(w)) & ~1u) : ILLEGAL;
    case 0x63: /* BEQ BNE, BLT BGE, BLTU BGEU: the low bit of funct3 negates */
        switch (funct3(w) >> 1) {
        case 0: taken = rs1(m, w) == rs2(m, w); break;
        case 2: taken = (int32_t)rs1(m, w) < (int32_t)rs2(m, w); break;
        case 3: taken = rs1(m, w) < rs2(m, w); break;
        default: return ILLEGAL;
        }
        if (taken == (funct3(w) & 1))
            return put(m, 0, 0);
        return jump(m, 0, m->pc + b_imm(w));
    case 0x03: /* loads: the low bits of funct3 are the width, and LBU and LHU set bit 2 */
        switch (funct3(w)) {
        case 0:
            out = load(m, rs1(m, w) + i_imm(w), 1, &value);
            value = (uint32_t)(int8_t)value;
            break;
        case 1:
            out = load(m, rs1(m, w) + i_imm(w), 2, &value);
            value = (uint32_t)(int16_t)value;
            break;
        case 2: out = load(m, rs1(m, w) + i_imm(w), 4, &value); break;
        case 4: out = load(m, rs1(m, w) + i_imm(w), 1, &value); break;
        case 5: out = load(m, rs1(m, w) + i_imm(w), 2, &value); break;
        default: return ILLEGAL;
        }
        return out == DONE ? put(m, rd(w), value) : out;
    case 0x23: /* SB, SH, SW */
        switch (funct3(w)) {
        case 0: out = store(m, rs1(m, w) + s_imm(w), 1, rs2(m, w)); break;
        case 1: out = store(m, rs1(m, w) + s_imm(w), 2, rs2(m, w)); break;
        case 2: out = store(m, rs1(m, w) + s_imm(w), 4, rs2(m, w)); break;
        default: return ILLEGAL;
        }
        return out == DONE ? put(m, 0, 0) : out;
    case 0x13: /* with an immediate; the shifts have a funct7 above their amount */
        if (funct3(w) == 1 && funct7(w) != 0)
            return ILLEGAL;
        if (funct3(w) == 5 && funct7(w) != 0 && funct7(w) != 0x20)
            return ILLEGAL;
        return put(m, rd(w), operation(funct3(w), funct3(w) == 5 && funct7(w) != 0, rs1(m, w), i_imm(w)));
    case 0x33: /* with two registers; SUB and SRA have funct7 0x20, and M has 1 */
        if (funct7(w) == 1)
            return put(m, rd(w), multiplication(funct3(w), rs1(m, w), rs2(m, w)));
        if (funct7(w) != 0 && !(funct7(w) == 0x20 && (funct3(w) == 0 || funct3(w) == 5)))
            return ILLEGAL;
        return put(m, rd(w), operation(funct3(w), funct7(w) != 0, rs1(m, w), rs2(m, w)));
    case 0x0f: /* FENCE: one hart sees its own stores in order */
        return funct3(w) == 0 ? put(m, 0, 0) : ILLEGAL;
    case 0x73: /* ECALL, EBREAK */
        return w == 0x00000073 ? CALL : w == 0x00100073 ? BREAKPOINT : ILLEGAL;
    default: return ILLEGAL;
    }
}

/* ---- The image */

static void refused(const char *why)
{
    printf("refused: %s\n", why);
    exit(3);
}

static uint32_t rounded_up(uint32_t n, uint32_t step) { return (n + step - 1) / step * step; }

static bool is_entry(uint32_t word, uint32_t size)
{
    return word % 4 == 0 && word >= PREAMBLE && word < size;
}

/* Lays the image at the start of RAM, its data region after it, and sets the opening registers. The
   preamble is checked for what the layout needs, and no more. */
static void place(struct machine *m, const uint8_t *image, size_t length)
{
    uint32_t word[16];
    if (length < PREAMBLE || length > MOST_IMAGE)
        refused("length");
    for (int i = 0; i < 16; i++)
        word[i] = number_at(image + 4 * i, 4);
    uint32_t shell = word[6], start = word[7], stack = word[10], callback = word[11];
    uint32_t callback_stack = word[13], code = word[14], data = word[15];
    if (word[0] != 0x4d4f4455 || word[3] != 32 || (word[5] & 3) != 3)
        refused("preamble");
    if (code % 4 != 0 || code != length || data > MOST_DATA || stack > 65536)
        refused("sizes");
    if (!is_entry(shell, code) || !is_entry(start, code) || (callback != 0 && callback_stack > 65536))
        refused("entries");

    uint32_t base = rounded_up(RAM_BASE + code, 32);
    uint32_t top = rounded_up(data, 16) + rounded_up(stack, 16);
    uint32_t size = top + (callback != 0 ? rounded_up(callback_stack, 16) : 0);
    memcpy(m->ram, image, length);
    m->regions[m->count++] = (struct region){RAM_BASE, code, FETCH | LOAD, 1};
    m->regions[m->count++] = (struct region){base, size, LOAD | STORE, 1};
    m->pc = RAM_BASE + shell;
    m->x[2] = base + top;
    m->x[3] = base;
    m->x[10] = RAM_BASE + start;
}

int main(int argc, char **argv)
{
    struct machine m = {0};
    static uint8_t image[MOST_IMAGE + 1];
    char *end;
    unsigned long most = argc == 3 ? strtoul(argv[2], &end, 10) : 0;
    if (argc != 3 || end == argv[2] || *end != '\0' || most > MOST_STEPS) {
        fputs("usage: hart IMAGE N\n", stderr);
        return 1;
    }
    FILE *file = fopen(argv[1], "rb");
    if (file == NULL)
        return 2;
    size_t length = fread(image, 1, sizeof image, file);
    if (ferror(file))
        return 2;
    fclose(file);
    m.ram = calloc(RAM_SIZE, 1);
    if (m.ram == NULL)
        return 5;
    place(&m, image, length);

    enum out out = DONE;
    uint32_t steps = 0;
    while (steps < most && (out = step(&m)) == DONE)
        steps++;

    printf("hart steps %u end ", (unsigned)steps);
    if (out == DONE)
        printf("count\n");
    else if (out == CALL)
        printf("call\n");
    else
        printf("fault %d\n", (int)out - FAULT);
    printf("pc %08x\nregs", (unsigned)m.pc);
    for (int i = 1; i < 32; i++)
        printf(" %08x", (unsigned)m.x[i]);
    printf("\n");
    free(m.ram);
    return fflush(stdout) == 0 && !ferror(stdout) ? 0 : 4;
}
