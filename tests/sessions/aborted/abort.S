# Makes a thread that sleeps one tick, and aborts its wait: before it sleeps, while it sleeps, and after that. The answers are
# kept from offset 80 on; the sleeper keeps its own at offset 96 and suspends itself.
    .include "txboard.inc"
    .include "thread.inc"
    preamble data_size=192
shell:
    jr a0
start:
    thread name, sleeper, 8, 8, 128
    mv a0, s0
    call THREAD_WAIT_ABORT
    sw a0, 80(gp)               # 1b: it waits for nothing
    mv a0, s0
    call THREAD_RESUME          # it is more urgent, and sleeps at once
    mv a0, s0
    call THREAD_WAIT_ABORT      # it goes on at once
    sw a0, 84(gp)               # 00
    mv a0, s0
    call THREAD_WAIT_ABORT
    sw a0, 88(gp)               # 1b: its wait has ended
    li a0, 0
    call THREAD_WAIT_ABORT
    sw a0, 92(gp)               # 0e: no thread
    j .
sleeper:
    li a0, 1
    call THREAD_SLEEP
    sw a0, 96(gp)               # 1a
    suspend
    j .
name:
    name "sleeper"
end:
