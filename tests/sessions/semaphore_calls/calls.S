# Asks a semaphore for everything, and before it for all that is refused, in the order in which it is tested. After each call its answer is
# kept, from offset 64 on.
    .include "txboard.inc"
    .include "objects.inc"
    .equ NONE, 0                # a word that is no reference
    .equ GATE, 4
    .equ MINE, 8                # the caller's own thread
    .equ BOX, 12                # a slot for a queue
    .equ INFO, 16
    .equ OUTSIDE, 64            # no address of the module's
    .macro create object, name
    lw a0, \object(gp)
    \name
    li a2, 2
    call SEMAPHORE_CREATE
    keep
    .endm
    .macro ask service, object, number=0
    lw a0, \object(gp)
    li a1, \number
    call \service
    keep
    .endm
    preamble data_size=320
shell:
start:
    slot GATE, 3
    slot BOX, 2
    call THREAD_IDENTIFY
    sw a0, MINE(gp)
    addi s1, gp, 64

    create NONE, "lla a1, name"                 # 0c: no reference
    create MINE, "lla a1, name"                 # 0c: a thread
    create BOX, "lla a1, name"                  # 0c: a slot for a queue
    create GATE, "li a1, OUTSIDE"               # f4: then the name
    create GATE, "lla a1, long"                 # 03: a name of 32 bytes
    create GATE, "li a1, 0"                     # 00: without a name, it counts 2
    create GATE, "lla a1, name"                 # 0c: it is created

    ask SEMAPHORE_GET, NONE                     # 0c
    ask SEMAPHORE_GET, MINE                     # 0c
    ask SEMAPHORE_GET, GATE, -1                 # 00: it counts 1, and doesn't wait
    ask SEMAPHORE_GET, GATE                     # 00: 0
    ask SEMAPHORE_GET, GATE                     # 0d
    ask SEMAPHORE_PUT, NONE                     # 0c
    ask SEMAPHORE_PUT, GATE                     # 00: 1
    ask SEMAPHORE_CEILING_PUT, NONE             # 0c: before the ceiling
    ask SEMAPHORE_CEILING_PUT, GATE             # 22
    ask SEMAPHORE_CEILING_PUT, GATE, 1          # 21
    ask SEMAPHORE_CEILING_PUT, GATE, 2          # 00: 2
    ask SEMAPHORE_PRIORITIZE, NONE              # 0c
    ask SEMAPHORE_PRIORITIZE, GATE              # 00
    ask SEMAPHORE_INFO_GET, NONE                # 0c
    ask SEMAPHORE_INFO_GET, GATE                # 03
    ask SEMAPHORE_INFO_GET, GATE, OUTSIDE       # f4
    info SEMAPHORE_INFO_GET, GATE, INFO
    keep                                        # 00: 2, 0
    ask OBJECT_DEALLOCATE, GATE                 # 03: it is created
    ask SEMAPHORE_DELETE, NONE                  # 0c
    ask SEMAPHORE_DELETE, GATE                  # 00
    ask SEMAPHORE_DELETE, GATE                  # 0c: there is no semaphore
    create GATE, "lla a1, name"                 # 00: in the same slot
    ask SEMAPHORE_DELETE, GATE                  # 00
    ask OBJECT_DEALLOCATE, GATE                 # 00
    j .
name:
    name "gate"
long:
    .ascii "a-name-that-has-exactly-32-bytes"
end:
