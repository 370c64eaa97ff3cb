# A queue with room for one message. The thread a sends 0xa1, which has room, and waits to send 0xa2; then b waits to send 0xb1. The start
# thread receives until there is nothing: what it gets is kept from offset 64 on, the answers from 80 on. Each receive lets the
# first of the two in.
    .include "txboard.inc"
    .include "thread.inc"
    .include "objects.inc"
    .equ BOX, 48
    .equ A1, 52
    .equ A2, 56
    .equ B1, 60
    .equ GOT, 64
    .equ ANSWERS, 80
    preamble data_size=256
shell:
    jr a0
start:
    queue BOX, name, 1, A1, 4
    set A1, 0xa1
    set A2, 0xa2
    set B1, 0xb1
    started name_a, a, 8, 128   # it waits at once
    started name_b, b, 8, 192
    addi s1, gp, ANSWERS
    message QUEUE_RECEIVE, BOX, GOT
    keep                        # 00
    message QUEUE_RECEIVE, BOX, GOT+4
    keep                        # 00
    message QUEUE_RECEIVE, BOX, GOT+8
    keep                        # 00
    message QUEUE_RECEIVE, BOX, GOT+12
    keep                        # 0a
    j .
a:
    message QUEUE_SEND, BOX, A1, -1
    message QUEUE_SEND, BOX, A2, -1
    sw zero, A2(gp)
    call THREAD_COMPLETE
b:
    message QUEUE_SEND, BOX, B1, -1
    sw zero, B1(gp)
    call THREAD_COMPLETE
name:
    name "box"
name_a:
    name "a"
name_b:
    name "b"
end:
