# Makes a queue and a semaphore, and then is less urgent than the other suppliers, so that they wait for both. A thread of its own waits
# for the semaphore of another one. Then the start thread stores outside its regions.
    .include "txboard.inc"
    .include "thread.inc"
    .include "objects.inc"
    .equ BOX, 48
    .equ GATE, 52
    .equ THEIRS, 56
    .equ OLD, 60
    .equ AREA, 64
    preamble data_size=192, priority=5
shell:
    jr a0
start:
    queue BOX, name_b, 1, AREA, 4
    semaphore GATE, name_g, 0
    call THREAD_IDENTIFY
    li a1, 20
    addi a2, gp, OLD
    call THREAD_PRIORITY_CHANGE
    started name_i, inner, 8, 128
    sw zero, 0(zero)
inner:
    find THEIRS, 3, name_t
    get THEIRS, -1
    j .
name_b:
    name "box"
name_g:
    name "gate"
name_i:
    name "inner"
name_t:
    name "theirs"
end:
