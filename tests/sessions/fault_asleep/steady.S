# Of another supplier. Sleeps three ticks, counts up a word of its data, at offset 8, and begins again.
    .include "txboard.inc"
    .include "thread.inc"
    preamble data_size=64, priority=20, supplier=2
shell:
start:
    li a0, 3
    call THREAD_SLEEP
    count 8
    j start
end:
