# Queues with messages of 1 and of 16 words, and areas of 4,096 bytes and of sizes that no message divides. Refused are messages of 0
# and of 17 words, an area of 4,097 bytes, and one in which no message has room. Of 1 word 1,024 messages have room: they are
# sent until there is none, and received in that order. The answers are kept from offset 0 on.
    .include "txboard.inc"
    .include "objects.inc"
    .equ THIN, 64
    .equ WIDE, 68
    .equ LAST, 72
    .equ ODD, 76
    .equ SENT, 80               # how many messages the first queue took
    .equ FULL, 84               # what the next one was answered
    .equ GOT, 88                # how many of them came back in their order
    .equ EMPTY, 92              # what the next receive was answered
    .equ WORD, 96
    .equ LONG, 128              # sixteen words, and where they come
    .equ BACK, 192
    .equ AREA, 256
    .macro create object, words, size
    lw a0, \object(gp)
    li a1, 0
    li a2, \words
    addi a3, gp, AREA
    li a4, \size
    call QUEUE_CREATE
    keep
    .endm
    preamble data_size=4608
shell:
start:
    mv s1, gp
    slot THIN, 2
    slot WIDE, 2
    slot LAST, 2
    slot ODD, 2
    create THIN, 0, 4096        # 05
    create THIN, 17, 4096       # 05
    create THIN, 1, 4097        # 05
    create THIN, 16, 63         # 05
    create THIN, 1, 4096        # 00: 1,024 messages
    create WIDE, 16, 4096       # 00: 64
    create LAST, 16, 127        # 00: 1
    create ODD, 1, 4095         # 00: 1,023
    li s2, 0
fill:
    sw s2, WORD(gp)
    message QUEUE_SEND, THIN, WORD
    bnez a0, full
    addi s2, s2, 1
    j fill
full:
    sw s2, SENT(gp)
    sw a0, FULL(gp)
    li s2, 0
empty:
    message QUEUE_RECEIVE, THIN, WORD
    bnez a0, long
    lw t1, WORD(gp)
    bne t1, s2, long
    addi s2, s2, 1
    j empty
long:
    sw s2, GOT(gp)
    sw a0, EMPTY(gp)
    addi t1, gp, LONG
    li t2, 16
words:
    sw t2, 0(t1)
    addi t1, t1, 4
    addi t2, t2, -1
    bnez t2, words
    message QUEUE_SEND, LAST, LONG
    message QUEUE_RECEIVE, LAST, BACK
    message QUEUE_SEND, WIDE, BACK
    j .
end:
