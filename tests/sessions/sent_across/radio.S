# Finds the queue "pipe" of another supplier, and waits for a message of one word at the start of its data, which is 0x800000c0. Then it
# reads the first byte there.
    .include "txboard.inc"
    .include "objects.inc"
    .equ TO, 0
    .equ PIPE, 8
    .equ ANSWER, 12
    preamble data_size=64
shell:
start:
    find PIPE, 2, name
    message QUEUE_RECEIVE, PIPE, TO, -1
    sw a0, ANSWER(gp)
    lbu t0, TO(gp)
    j .
name:
    name "pipe"
end:
