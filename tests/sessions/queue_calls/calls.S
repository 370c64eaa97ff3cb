# Asks a queue for everything, and before it for all that is refused, in the order in which it is tested. A message has two words, and two
# have room. After each call its answer is kept, from offset 64 on.
    .include "txboard.inc"
    .include "objects.inc"
    .equ NONE, 0                # a word that is no reference
    .equ BOX, 4
    .equ MINE, 8                # the caller's own thread
    .equ GATE, 12               # a slot for a semaphore
    .equ INFO, 16
    .equ SENT, 32
    .equ GOT, 40
    .equ AREA, 48
    .equ OUTSIDE, 64            # no address of the module's
    .macro create object, name, words, area, size
    lw a0, \object(gp)
    \name
    li a2, \words
    \area
    li a4, \size
    call QUEUE_CREATE
    keep
    .endm
    .macro ask service, object, at, ticks=0
    message \service, \object, \at, \ticks
    keep
    .endm
    .macro ask_at service, address
    lw a0, BOX(gp)
    li a1, \address
    li a2, 0
    call \service
    keep
    .endm
    .macro ask_on service, object
    on \service, \object
    keep
    .endm
    preamble data_size=320
shell:
start:
    slot BOX, 2
    slot GATE, 3
    call THREAD_IDENTIFY
    sw a0, MINE(gp)
    set SENT, 0x11
    set SENT+4, 0x22
    addi s1, gp, 64

    create NONE, "lla a1, name", 2, "addi a3, gp, AREA", 16     # 09: no reference
    create MINE, "lla a1, name", 2, "addi a3, gp, AREA", 16     # 09: a thread
    create GATE, "lla a1, name", 2, "addi a3, gp, AREA", 16     # 09: a slot for a semaphore
    create BOX, "li a1, OUTSIDE", 0, "li a3, 0", 16             # f4: the name comes first
    create BOX, "lla a1, long", 0, "li a3, 0", 16               # 03: a name of 32 bytes
    create BOX, "lla a1, name", 0, "li a3, 0", 16               # 03: then the area
    create BOX, "lla a1, name", 0, "addi a3, gp, AREA+2", 16    # 03
    create BOX, "lla a1, name", 0, "li a3, OUTSIDE", 16         # f4
    create BOX, "lla a1, name", 0, "addi a3, gp, AREA", 4097    # f4: it ends outside
    create BOX, "lla a1, name", 0, "addi a3, gp, AREA", 16      # 05: then the words
    create BOX, "lla a1, name", 17, "addi a3, gp, AREA", 16     # 05
    create BOX, "lla a1, name", 2, "addi a3, gp, AREA", 7       # 05: no message has room
    create BOX, "lla a1, name", 2, "addi a3, gp, AREA", 16      # 00
    create BOX, "lla a1, name", 2, "addi a3, gp, AREA", 16      # 09: it is created

    ask QUEUE_SEND, NONE, SENT                                  # 09
    ask QUEUE_FRONT_SEND, NONE, SENT                            # 09
    ask QUEUE_RECEIVE, NONE, GOT                                # 09
    ask QUEUE_RECEIVE, MINE, GOT                                # 09
    ask_at QUEUE_SEND, 0                                        # 03
    ask_at QUEUE_SEND, OUTSIDE                                  # f4
    ask_at QUEUE_FRONT_SEND, 0                                  # 03
    ask_at QUEUE_FRONT_SEND, OUTSIDE                            # f4
    ask_at QUEUE_RECEIVE, 0                                     # 03
    ask_at QUEUE_RECEIVE, OUTSIDE                               # f4
    ask QUEUE_RECEIVE, BOX, GOT                                 # 0a
    ask QUEUE_SEND, BOX, SENT                                   # 00
    ask QUEUE_FRONT_SEND, BOX, SENT                             # 00
    ask QUEUE_SEND, BOX, SENT                                   # 0b
    ask QUEUE_FRONT_SEND, BOX, SENT                             # 0b
    ask_at QUEUE_INFO_GET, 0                                    # 03
    ask_at QUEUE_INFO_GET, OUTSIDE                              # f4
    ask QUEUE_INFO_GET, NONE, INFO                              # 09
    ask QUEUE_INFO_GET, BOX, INFO                               # 00: 2, 0, 0
    ask_on QUEUE_PRIORITIZE, NONE                               # 09
    ask_on QUEUE_PRIORITIZE, BOX                                # 00
    ask_on OBJECT_DEALLOCATE, BOX                               # 03: it is created
    ask QUEUE_RECEIVE, BOX, GOT                                 # 00
    ask_on QUEUE_FLUSH, NONE                                    # 09
    ask_on QUEUE_FLUSH, BOX                                     # 00
    ask QUEUE_RECEIVE, BOX, GOT                                 # 0a
    ask_on QUEUE_DELETE, NONE                                   # 09
    ask_on QUEUE_DELETE, BOX                                    # 00
    ask_on QUEUE_DELETE, BOX                                    # 09: there is no queue
    ask_on OBJECT_DEALLOCATE, BOX                               # 00
    j .
name:
    name "box"
long:
    .ascii "a-name-that-has-exactly-32-bytes"
end:
