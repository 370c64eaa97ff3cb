# Faults with cause 3: a breakpoint.
    .include "txboard.inc"
    preamble data_size=64, priority=5
shell:
start:
    ebreak
end:
