# A radio of another supplier: it waits for the semaphore "reading" and then sends a frame, which it counts at offset 8.
    .include "txboard.inc"
    .include "thread.inc"
    .include "objects.inc"
    .equ READING, 0
    preamble data_size=64, priority=12, supplier=2
shell:
start:
    find READING, 3, name
serve:
    get READING, -1
    count 8
    j serve
name:
    name "reading"
end:
