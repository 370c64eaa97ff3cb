# A queue of messages of two words has one message. Receives whose destination won't do are refused: the message stays, and so does
# the last word of the data region, 0x5a5a5a5a at 0x800001dc. The answers are kept from offset 4 on. Then the region's last two
# words are the destination. What the queue has is told before that, and after it.
    .include "txboard.inc"
    .include "objects.inc"
    .equ BOX, 0
    .equ ANSWERS, 4
    .equ BEFORE, 20
    .equ AFTER, 32
    .equ SENT, 44
    .equ AREA, 56
    .equ LAST, 92
    preamble data_size=32, stack=64
shell:
start:
    queue BOX, name, 2, AREA, 16
    set SENT, 0x11
    set SENT+4, 0x22
    set LAST, 0x5a5a5a5a
    message QUEUE_SEND, BOX, SENT
    addi s1, gp, ANSWERS
    message QUEUE_RECEIVE, BOX, LAST
    keep                        # f4: its second word lies outside
    message QUEUE_RECEIVE, BOX, LAST, -1
    keep                        # f4: nor does it wait there
    lw a0, BOX(gp)
    li a1, 0
    call QUEUE_RECEIVE
    keep                        # 03
    info QUEUE_INFO_GET, BOX, BEFORE
    lw t1, LAST(gp)             # 5a5a5a5a
    message QUEUE_RECEIVE, BOX, LAST-4
    keep                        # 00
    info QUEUE_INFO_GET, BOX, AFTER
    j .
name:
    name "box"
end:
