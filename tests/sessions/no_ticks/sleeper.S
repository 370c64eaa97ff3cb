# Sleeps no tick at all and counts; then it sleeps the most ticks that there are, and would count again.
    .include "txboard.inc"
    .include "thread.inc"
    preamble data_size=64
shell:
start:
    li a0, 0
    call THREAD_SLEEP
    count 8
    li a0, -1
    call THREAD_SLEEP
    count 12
    j .
end:
