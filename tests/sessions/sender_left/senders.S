# A queue has room for one message and has 1. The threads a, b and c wait to send 0xa, 0xb and 0xc. The wait of a is aborted and b is
# terminated: their messages never enter. The start thread receives until there is nothing. What it gets is kept from offset 80 on,
# the answers of its receives from 96 on, those of a and c at offsets 112 and 116.
    .include "txboard.inc"
    .include "thread.inc"
    .include "objects.inc"
    .equ BOX, 48
    .equ OF_A, 52               # the references of a and b
    .equ OF_B, 56
    .equ SENT, 60
    .equ GOT, 80
    .equ ANSWERS, 96
    .equ ANSWER_A, 112
    .equ ANSWER_C, 116
    .macro send letter
    set SENT, \letter
    message QUEUE_SEND, BOX, SENT, -1
    .endm
    preamble data_size=320
shell:
    jr a0
start:
    queue BOX, name, 1, SENT, 4
    set ANSWER_A, -1
    set ANSWER_C, -1
    set GOT+8, -1
    send 1
    started name_a, a, 8, 128   # it waits at once
    sw s0, OF_A(gp)
    started name_b, b, 8, 192
    sw s0, OF_B(gp)
    started name_c, c, 8, 256
    on THREAD_WAIT_ABORT, OF_A
    on THREAD_TERMINATE, OF_B
    addi s1, gp, ANSWERS
    message QUEUE_RECEIVE, BOX, GOT
    keep                        # 00
    message QUEUE_RECEIVE, BOX, GOT+4
    keep                        # 00
    message QUEUE_RECEIVE, BOX, GOT+8
    keep                        # 0a
    j .
a:
    send 0xa
    sw a0, ANSWER_A(gp)         # 1a
    call THREAD_COMPLETE
b:
    send 0xb
    j .
c:
    send 0xc
    sw a0, ANSWER_C(gp)         # 00
    call THREAD_COMPLETE
name:
    name "box"
name_a:
    name "a"
name_b:
    name "b"
name_c:
    name "c"
end:
