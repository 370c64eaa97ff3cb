# Writes the word at offset 60 of its data, the last one, and completes.
    .include "txboard.inc"
    preamble data_size=64, stack=64
shell:
start:
    lui t0, 0x12345
    sw t0, 60(gp)
    call THREAD_COMPLETE
end:
