# A thread waits one tick for an instance of a semaphore that counts 0; its answer is kept at offset 60. Then the start thread puts to the
# semaphore; what is answered is kept at offset 64.
    .include "txboard.inc"
    .include "thread.inc"
    .include "objects.inc"
    .equ GATE, 48
    .equ GOT, 60
    .equ PUT, 64
    preamble data_size=192
shell:
    jr a0
start:
    semaphore GATE, name, 0
    set GOT, -1
    set PUT, -1
    started name_w, waiter, 8, 128
    on SEMAPHORE_PUT, GATE
    sw a0, PUT(gp)
    j .
waiter:
    get GATE, 1
    sw a0, GOT(gp)
    call THREAD_COMPLETE
name:
    name "gate"
name_w:
    name "waiter"
end:
