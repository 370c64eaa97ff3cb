# The start thread makes another one of its priority with a time slice of three ticks, sets its own to two, and counts at offset
# 80; the other one counts at offset 84.
    .include "txboard.inc"
    .include "thread.inc"
    preamble data_size=192
shell:
    jr a0
start:
    thread name, other, 10, 10, 128
    mv a0, s0
    li a1, 3
    addi a2, gp, 8
    call THREAD_TIME_SLICE_CHANGE
    call THREAD_IDENTIFY
    li a1, 2
    addi a2, gp, 8
    call THREAD_TIME_SLICE_CHANGE
    mv a0, s0
    call THREAD_RESUME
again:
    count 80
    j again
other:
    count 84
    j other
name:
    name "other"
end:
