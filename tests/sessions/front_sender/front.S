# A queue with room for two messages has 1 and 2. The thread a waits to send 0xa to the front, and then b to send 0xb. The start thread
# receives four times: as 1 is taken 0xa goes in first, and as that is taken 0xb goes in last. Then it sends 3, and 4 to the front, which
# have room, and 5 to the front, which hasn't, and receives twice. What it gets is kept from offset 80 on.
    .include "txboard.inc"
    .include "thread.inc"
    .include "objects.inc"
    .equ BOX, 48
    .equ SENT, 52
    .equ OF_A, 56
    .equ OF_B, 60
    .equ GOT, 80
    .equ FULL, 104
    .macro send service, word
    set SENT, \word
    message \service, BOX, SENT
    .endm
    preamble data_size=256
shell:
    jr a0
start:
    queue BOX, name, 1, SENT, 8
    send QUEUE_SEND, 1
    send QUEUE_SEND, 2
    started name_a, a, 8, 128   # it waits at once
    started name_b, b, 8, 192
    message QUEUE_RECEIVE, BOX, GOT
    message QUEUE_RECEIVE, BOX, GOT+4
    message QUEUE_RECEIVE, BOX, GOT+8
    message QUEUE_RECEIVE, BOX, GOT+12
    send QUEUE_SEND, 3
    send QUEUE_FRONT_SEND, 4
    send QUEUE_FRONT_SEND, 5
    sw a0, FULL(gp)             # 0b
    message QUEUE_RECEIVE, BOX, GOT+16
    message QUEUE_RECEIVE, BOX, GOT+20
    j .
a:
    set OF_A, 0xa
    message QUEUE_FRONT_SEND, BOX, OF_A, -1
    call THREAD_COMPLETE
b:
    set OF_B, 0xb
    message QUEUE_SEND, BOX, OF_B, -1
    call THREAD_COMPLETE
name:
    name "box"
name_a:
    name "a"
name_b:
    name "b"
end:
