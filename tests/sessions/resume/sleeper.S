# Suspends itself, and once it is resumed stays in a loop.
    .include "txboard.inc"
    .include "thread.inc"
    preamble data_size=64
shell:
start:
    suspend
    j .
end:
