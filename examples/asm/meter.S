# A meter: it counts up a word of its data, at offset 8, and lets another thread of its priority have its turn.
    .include "txboard.inc"
    preamble data_size=64
shell:
start:
    lw t1, 8(gp)
    addi t1, t1, 1
    sw t1, 8(gp)
    call THREAD_RELINQUISH
    j start
end:
