# A semaphore counts 0, and the threads a, b and c wait for it in this order. The wait of a is aborted, b is terminated, and c gets what is
# put. Then nobody waits: the next put is counted, got, and there is no more. The answers are kept from offset 80 on, those of a and c
# at offsets 104 and 108.
    .include "txboard.inc"
    .include "thread.inc"
    .include "objects.inc"
    .equ GATE, 48
    .equ OF_A, 52               # the references of a and b
    .equ OF_B, 56
    .equ ANSWERS, 80
    .equ ANSWER_A, 104
    .equ ANSWER_C, 108
    .macro ask service, object
    on \service, \object
    keep
    .endm
    preamble data_size=320
shell:
    jr a0
start:
    semaphore GATE, name, 0
    set ANSWER_A, -1
    set ANSWER_C, -1
    started name_a, a, 8, 128   # it waits at once
    sw s0, OF_A(gp)
    started name_b, b, 8, 192
    sw s0, OF_B(gp)
    started name_c, c, 8, 256
    addi s1, gp, ANSWERS
    ask THREAD_WAIT_ABORT, OF_A # 00
    ask THREAD_TERMINATE, OF_B  # 00
    ask SEMAPHORE_PUT, GATE     # 00
    ask SEMAPHORE_PUT, GATE     # 00
    get GATE
    keep                        # 00
    get GATE
    keep                        # 0d
    j .
a:
    get GATE, 2
    sw a0, ANSWER_A(gp)         # 1a
    call THREAD_COMPLETE
b:
    get GATE, 2
    j .
c:
    get GATE, 2
    sw a0, ANSWER_C(gp)         # 00
    call THREAD_COMPLETE
name:
    name "gate"
name_a:
    name "a"
name_b:
    name "b"
name_c:
    name "c"
end:
