# Faults with cause 5: a load outside its regions.
    .include "txboard.inc"
    preamble data_size=64, priority=5
shell:
start:
    lw t0, 0(zero)
end:
