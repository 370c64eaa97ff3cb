# Makes a thread that is to sleep five ticks and then to count. Once it sleeps, the start thread stores outside its regions.
    .include "txboard.inc"
    .include "thread.inc"
    preamble data_size=192
shell:
    jr a0
start:
    thread name, sleeper, 8, 8, 128
    mv a0, s0
    call THREAD_RESUME          # it is more urgent, and sleeps at once
    sw zero, 0(zero)
sleeper:
    li a0, 5
    call THREAD_SLEEP
    count 8
    j sleeper
name:
    name "sleeper"
end:
