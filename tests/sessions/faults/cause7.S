# Faults with cause 7: after a store to the last word of its data, one past its end.
    .include "txboard.inc"
    preamble data_size=64, priority=5
shell:
start:
    sw t0, 0x13C(gp)
    sw t0, 0x140(gp)
end:
