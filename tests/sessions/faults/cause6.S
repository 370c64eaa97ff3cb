# Faults with cause 6: after a store to the last word of its data, one at the address after that.
    .include "txboard.inc"
    preamble data_size=64, priority=5
shell:
start:
    sw t0, 0x13C(gp)
    sw t0, 0x13D(gp)
end:
