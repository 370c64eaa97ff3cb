# Makes a thread that sleeps two ticks, terminates it while it sleeps, and suspends itself. Once resumed it resets that thread and
# resumes it. The sleeper counts at offset 80 each time that it has slept.
    .include "txboard.inc"
    .include "thread.inc"
    preamble data_size=192
shell:
    jr a0
start:
    thread name, sleeper, 8, 8, 128
    mv a0, s0
    call THREAD_RESUME          # it is more urgent, and sleeps at once
    mv a0, s0
    call THREAD_TERMINATE
    suspend
    mv a0, s0
    call THREAD_RESET
    mv a0, s0
    call THREAD_RESUME          # it sleeps anew
    j .
sleeper:
    li a0, 2
    call THREAD_SLEEP
    count 80
    j sleeper
name:
    name "sleeper"
end:
