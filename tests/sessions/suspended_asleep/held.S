# Makes a thread that sleeps two ticks, suspends it while it sleeps, and counts at offset 80. The sleeper keeps its answer, plus
# one, at offset 84.
    .include "txboard.inc"
    .include "thread.inc"
    preamble data_size=192
shell:
    jr a0
start:
    thread name, sleeper, 8, 8, 128
    mv a0, s0
    call THREAD_RESUME          # it is more urgent, and sleeps at once
    mv a0, s0
    call THREAD_SUSPEND         # it sleeps on, and is to be suspended then
    count 80
    j .
sleeper:
    li a0, 2
    call THREAD_SLEEP
    addi t0, a0, 1
    sw t0, 84(gp)
    j .
name:
    name "sleeper"
end:
