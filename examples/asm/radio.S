# A radio: it does as the meter does three times, and then stores outside its regions, and is halted.
    .include "txboard.inc"
    preamble data_size=64
shell:
start:
    li t2, 3
again:
    lw t1, 8(gp)
    addi t1, t1, 1
    sw t1, 8(gp)
    call THREAD_RELINQUISH
    bne t1, t2, again
    sw t0, 0(zero)
end:
