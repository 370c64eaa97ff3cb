# Faults with cause 2: a word without an instruction.
    .include "txboard.inc"
    preamble data_size=64, priority=5
shell:
start:
    .word 0
end:
