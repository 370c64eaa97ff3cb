# Of another supplier, and first to run. Makes the queue "pipe", and then is less urgent than the radio, so that this one waits for a
# message. It sends 0x11223344.
    .include "txboard.inc"
    .include "objects.inc"
    .equ PIPE, 0
    .equ OLD, 4
    .equ ANSWER, 8
    .equ SENT, 12
    preamble data_size=64, priority=5, supplier=2
shell:
start:
    queue PIPE, name, 1, SENT, 4
    set SENT, 0x11223344
    call THREAD_IDENTIFY
    li a1, 20
    addi a2, gp, OLD
    call THREAD_PRIORITY_CHANGE
    message QUEUE_SEND, PIPE, SENT
    sw a0, ANSWER(gp)
    j .
name:
    name "pipe"
end:
