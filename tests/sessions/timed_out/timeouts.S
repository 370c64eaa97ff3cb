# Four threads wait: one for one tick for a message of an empty queue, one for two ticks to send to a full one, one for two ticks for an
# instance of a semaphore, and one for ever for the same. Their answers are kept from offset 80 on in this order. The start thread
# suspends itself. Once it is resumed it puts to the semaphore, sends to the empty queue, and receives from the full one what it keeps
# at offset 76.
    .include "txboard.inc"
    .include "thread.inc"
    .include "objects.inc"
    .equ EMPTY, 48
    .equ FULL, 52
    .equ GATE, 56
    .equ SENT, 60
    .equ HELD, 64
    .equ TO, 72
    .equ GOT, 76
    .equ ANSWERS, 80
    .macro tell at
    sw a0, \at(gp)
    call THREAD_COMPLETE
    .endm
    preamble data_size=384
shell:
    jr a0
start:
    queue EMPTY, name_e, 1, SENT, 4
    queue FULL, name_f, 1, SENT, 4
    semaphore GATE, name_g, 0
    set SENT, 1
    set HELD, 2
    set TO, -1
    set ANSWERS, -1
    set ANSWERS+4, -1
    set ANSWERS+8, -1
    set ANSWERS+12, -1
    message QUEUE_SEND, FULL, SENT
    started name_r, r, 8, 128   # it waits at once
    started name_s, s, 8, 192
    started name_t, t, 8, 256
    started name_u, u, 8, 320
    suspend
    on SEMAPHORE_PUT, GATE
    message QUEUE_SEND, EMPTY, SENT
    message QUEUE_RECEIVE, FULL, GOT
    j .
r:
    message QUEUE_RECEIVE, EMPTY, TO, 1
    tell ANSWERS                # 0a
s:
    message QUEUE_SEND, FULL, HELD, 2
    tell ANSWERS+4              # 0b
t:
    get GATE, 2
    tell ANSWERS+8              # 0d
u:
    get GATE, -1
    tell ANSWERS+12             # 00
name_e:
    name "empty"
name_f:
    name "full"
name_g:
    name "gate"
name_r:
    name "r"
name_s:
    name "s"
name_t:
    name "t"
name_u:
    name "u"
end:
