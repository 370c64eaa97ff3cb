# A semaphore counts 0, and two threads wait for it: first w of priority 8, then v of 5. Two more are suspended: "plain" puts to
# the semaphore as it is, and "urgent" prioritizes it before. Who gets the instance puts a 1 into its word, w at offset 52 and v at 56.
    .include "txboard.inc"
    .include "thread.inc"
    .include "objects.inc"
    .equ GATE, 48
    .equ OF_W, 52
    .equ OF_V, 56
    preamble data_size=384
shell:
    jr a0
start:
    semaphore GATE, name, 0
    started name_w, w, 8, 128   # it waits at once
    started name_v, v, 5, 192
    thread name_p, plain, 12, 12, 256
    thread name_u, urgent, 12, 12, 320
    call THREAD_COMPLETE
w:
    get GATE, -1
    set OF_W, 1
    call THREAD_COMPLETE
v:
    get GATE, -1
    set OF_V, 1
    call THREAD_COMPLETE
urgent:
    on SEMAPHORE_PRIORITIZE, GATE
plain:
    on SEMAPHORE_PUT, GATE
    call THREAD_COMPLETE
name:
    name "gate"
name_w:
    name "w"
name_v:
    name "v"
name_p:
    name "plain"
name_u:
    name "urgent"
end:
