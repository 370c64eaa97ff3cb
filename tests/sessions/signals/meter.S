# A meter: it takes a reading every two ticks, which it counts at offset 8, and puts to the semaphore "reading".
    .include "txboard.inc"
    .include "thread.inc"
    .include "objects.inc"
    .equ READING, 0
    preamble data_size=64, priority=8
shell:
start:
    semaphore READING, name, 0
measure:
    li a0, 2
    call THREAD_SLEEP
    count 8
    on SEMAPHORE_PUT, READING
    j measure
name:
    name "reading"
end:
