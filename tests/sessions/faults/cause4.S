# Faults with cause 4: a load of a word at an address that 4 does not divide.
    .include "txboard.inc"
    preamble data_size=64, priority=5
shell:
start:
    lw t0, 1(gp)
end:
