# Of a third supplier. Waits for an instance of the semaphore "gate" of the first, three ticks at most, and then for one more. The answers
# are kept from offset 16 on.
    .include "txboard.inc"
    .include "objects.inc"
    .equ GATE, 0
    preamble data_size=64, supplier=3
shell:
start:
    find GATE, 3, name
    addi s1, gp, 16
    get GATE, 3
    keep                        # 01
    get GATE, 3
    keep                        # 0c: there is no semaphore
    call THREAD_COMPLETE
name:
    name "gate"
end:
