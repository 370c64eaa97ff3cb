# Of another supplier. Finds the queue "box", may not delete it, and waits five ticks for a message. Then it receives once more, and looks
# for the name. The answers are kept from offset 16 on; the message would come to offset 8.
    .include "txboard.inc"
    .include "objects.inc"
    .equ BOX, 0
    .equ GOT, 8
    preamble data_size=64, supplier=2
shell:
start:
    set GOT, -1
    addi s1, gp, 16
    find BOX, 2, name
    keep                        # 00
    on QUEUE_DELETE, BOX
    keep                        # 13: it isn't the module's own
    message QUEUE_RECEIVE, BOX, GOT, 5
    keep                        # 01
    message QUEUE_RECEIVE, BOX, GOT, 5
    keep                        # 09: there is no queue
    find BOX, 2, name
    keep                        # 0d
    call THREAD_COMPLETE
name:
    name "box"
end:
