# Makes the queue "box" and then is less urgent than the readers, so that both wait for a message. It deletes the queue, asks for what is
# kept of it, and gives its slot back. The answers are kept from offset 16 on.
    .include "txboard.inc"
    .include "objects.inc"
    .equ BOX, 0
    .equ OLD, 4
    .equ INFO, 8
    .equ AREA, 32
    preamble data_size=64, priority=5
shell:
start:
    queue BOX, name, 1, AREA, 4
    call THREAD_IDENTIFY
    li a1, 20
    addi a2, gp, OLD
    call THREAD_PRIORITY_CHANGE
    addi s1, gp, 16
    on QUEUE_DELETE, BOX
    keep                        # 00
    info QUEUE_INFO_GET, BOX, INFO
    keep                        # 09: there is no queue
    on OBJECT_DEALLOCATE, BOX
    keep                        # 00
    call THREAD_COMPLETE
name:
    name "box"
end:
