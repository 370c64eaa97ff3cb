# Counts up a word of its data, at offset 8, and lets another thread of its priority have its turn.
    .include "txboard.inc"
    .include "thread.inc"
    preamble data_size=64
shell:
start:
    count 8
    call THREAD_RELINQUISH
    j start
end:
