# The start thread, of priority 10, makes b of priority 7, c of 4 and d of 5, sets its own threshold to 5 and counts to five;
# then it suspends itself. The others count one up and suspend themselves.
    .include "txboard.inc"
    .include "thread.inc"
    preamble data_size=320
shell:
    jr a0
start:
    thread b_name, b, 7, 7, 128
    thread c_name, c, 4, 4, 192
    thread d_name, d, 5, 5, 256
    call THREAD_IDENTIFY
    li a1, 5
    addi a2, gp, 8
    call THREAD_PREEMPTION_CHANGE
a:
    count 80
    li t2, 5
    bne t1, t2, a
    suspend
b:
    count 84
    suspend
    j b
c:
    count 88
    suspend
    j c
d:
    count 92
    suspend
    j d
b_name:
    name "b"
c_name:
    name "c"
d_name:
    name "d"
end:
