# The start thread, of priority 20, makes y of priority 7 and threshold 2, sets its own threshold to 8 and counts. y sets its
# priority, and with it its threshold, to 20, and counts.
    .include "txboard.inc"
    .include "thread.inc"
    preamble data_size=192, priority=20
shell:
    jr a0
start:
    thread y_name, y, 7, 2, 128
    call THREAD_IDENTIFY
    li a1, 8
    addi a2, gp, 8
    call THREAD_PREEMPTION_CHANGE
x:
    count 80
    j x
y:
    call THREAD_IDENTIFY
    li a1, 20
    addi a2, gp, 12
    call THREAD_PRIORITY_CHANGE
    count 84
    j y
y_name:
    name "y"
end:
