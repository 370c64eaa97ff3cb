# Faults with cause 0: a jump to an address that 4 does not divide.
    .include "txboard.inc"
    preamble data_size=64, priority=5
shell:
start:
    .word 0x0020006F            # jal x0, 2, which the assembler refuses
end:
