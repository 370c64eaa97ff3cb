# Asks for its own reference, then for a number without a row, then to resume no thread; keeps each answer, and completes.
    .include "txboard.inc"
    preamble data_size=64
shell:
start:
    call THREAD_IDENTIFY
    sw a0, 8(gp)
    call 0x05
    sw a0, 12(gp)
    li a0, 0
    call THREAD_RESUME
    sw a0, 16(gp)
    call THREAD_COMPLETE
end:
