# A queue has room for one message and has it; the threads a and b wait to send theirs. It is flushed: a and b go on in this order,
# with the answer 0, and their messages aren't in the queue. The answers of the start thread are kept from offset 80 on, then those of
# a and b; each of the two puts its letter last into the word ORDER.
    .include "txboard.inc"
    .include "thread.inc"
    .include "objects.inc"
    .equ BOX, 48
    .equ SENT, 52
    .equ GOT, 56
    .equ INFO, 60
    .equ ORDER, 72
    .equ ANSWERS, 80
    .equ OF_A, 96
    .equ OF_B, 100
    .macro send_and_tell letter, answer
    message QUEUE_SEND, BOX, SENT, -1
    sw a0, \answer(gp)
    lw t1, ORDER(gp)
    slli t1, t1, 4
    addi t1, t1, \letter
    sw t1, ORDER(gp)
    call THREAD_COMPLETE
    .endm
    preamble data_size=256
shell:
    jr a0
start:
    queue BOX, name, 1, SENT, 4
    set SENT, 7
    set GOT, -1
    set OF_A, -1
    set OF_B, -1
    message QUEUE_SEND, BOX, SENT
    started name_a, a, 8, 128   # it waits at once
    started name_b, b, 8, 192
    addi s1, gp, ANSWERS
    on QUEUE_FLUSH, BOX
    keep                        # 00
    message QUEUE_RECEIVE, BOX, GOT
    keep                        # 0a
    info QUEUE_INFO_GET, BOX, INFO
    keep                        # 00
    on QUEUE_FLUSH, BOX
    keep                        # 00: there is nothing to flush
    j .
a:
    send_and_tell 0xa, OF_A
b:
    send_and_tell 0xb, OF_B
name:
    name "box"
name_a:
    name "a"
name_b:
    name "b"
end:
