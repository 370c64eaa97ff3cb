# Sleeps four ticks, counts up a word of its data, at offset 8, and begins again.
    .include "txboard.inc"
    .include "thread.inc"
    preamble data_size=64
shell:
start:
    li a0, 4
    call THREAD_SLEEP
    count 8
    j start
end:
