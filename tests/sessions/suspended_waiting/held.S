# A thread waits for a message of two words, and is suspended while it waits. What is kept of it is written to offset 80: it waits, and
# the suspension is held. A message is sent to the front: it comes to offset 64 at once, the thread's answer is 0, and it is suspended.
# What is kept of it is written to offset 112. A device resumes it: it keeps its answer at offset 72.
    .include "txboard.inc"
    .include "thread.inc"
    .include "objects.inc"
    .equ BOX, 48
    .equ SENT, 52
    .equ GOT, 64
    .equ ANSWER, 72
    .equ WAITING, 80
    .equ SUSPENDED, 112
    preamble data_size=256
shell:
    jr a0
start:
    queue BOX, name, 2, SENT, 8
    set SENT, 0x11
    set SENT+4, 0x22
    set ANSWER, -1
    started name_w, waiter, 8, 192
    on THREAD_SUSPEND, 0
    info THREAD_INFO_GET, 0, WAITING
    message QUEUE_FRONT_SEND, BOX, SENT
    info THREAD_INFO_GET, 0, SUSPENDED
    call THREAD_COMPLETE
waiter:
    message QUEUE_RECEIVE, BOX, GOT, -1
    sw a0, ANSWER(gp)
    call THREAD_COMPLETE
name:
    name "box"
name_w:
    name "waiter"
end:
