# A queue is empty, and four threads wait for a message: a of priority 9, b of 8, c and d of 5. It is prioritized: c, the first of the
# most urgent, goes first, and the others stay in order. Then the priority of b, who waits, becomes 4, and it is prioritized again.
# A message is sent: b gets it. Each keeps what it gets, from offset 80 on.
    .include "txboard.inc"
    .include "thread.inc"
    .include "objects.inc"
    .equ BOX, 48
    .equ OF_B, 52               # the reference of b
    .equ OLD, 56
    .equ SENT, 60
    .equ GOT, 80
    .macro receive at
    message QUEUE_RECEIVE, BOX, \at, -1
    call THREAD_COMPLETE
    .endm
    preamble data_size=384
shell:
    jr a0
start:
    queue BOX, name, 1, SENT, 4
    started name_a, a, 9, 128   # it waits at once
    started name_b, b, 8, 192
    sw s0, OF_B(gp)
    started name_c, c, 5, 256
    started name_d, d, 5, 320
    on QUEUE_PRIORITIZE, BOX
    lw a0, OF_B(gp)
    li a1, 4
    addi a2, gp, OLD
    call THREAD_PRIORITY_CHANGE
    on QUEUE_PRIORITIZE, BOX
    set SENT, 0x99
    message QUEUE_SEND, BOX, SENT
    j .
a:
    receive GOT
b:
    receive GOT+4
c:
    receive GOT+8
d:
    receive GOT+12
name:
    name "box"
name_a:
    name "a"
name_b:
    name "b"
name_c:
    name "c"
name_d:
    name "d"
end:
