# Of another supplier. Makes the semaphore "theirs" and waits for a message of the queue "box" of the first. Then it receives once more,
# looks for the name, and puts to its own semaphore. The answers are kept from offset 16 on; the message would come to offset 8.
    .include "txboard.inc"
    .include "objects.inc"
    .equ BOX, 0
    .equ THEIRS, 4
    .equ GOT, 8
    preamble data_size=64, supplier=2
shell:
start:
    set GOT, -1
    semaphore THEIRS, name_t, 0
    find BOX, 2, name_b
    addi s1, gp, 16
    message QUEUE_RECEIVE, BOX, GOT, -1
    keep                        # 01
    message QUEUE_RECEIVE, BOX, GOT, -1
    keep                        # 09: there is no queue
    find BOX, 2, name_b
    keep                        # 0d
    on SEMAPHORE_PUT, THEIRS
    keep                        # 00: nobody waits for it
    call THREAD_COMPLETE
name_b:
    name "box"
name_t:
    name "theirs"
end:
