# Faults with cause 1: its code ends after one instruction.
    .include "txboard.inc"
    preamble data_size=64, priority=5
shell:
start:
    li t0, 7
end:
