# A semaphore counts 0xffffffff and is put: it counts 0. Puts with a ceiling: 0 is refused before the count is looked at, and a count at
# the ceiling or above it too. The answers are kept from offset 16 on, and what is kept of the semaphores after some of them: each
# time the count, and how many wait.
    .include "txboard.inc"
    .include "objects.inc"
    .equ FULL, 0
    .equ THREE, 4
    .macro ceiling_put object, ceiling
    lw a0, \object(gp)
    li a1, \ceiling
    call SEMAPHORE_CEILING_PUT
    keep
    .endm
    .macro tell object
    lw a0, \object(gp)
    mv a1, s1
    call SEMAPHORE_INFO_GET
    addi s1, s1, 8
    .endm
    preamble data_size=128
shell:
start:
    addi s1, gp, 16
    semaphore FULL, name_f, -1
    semaphore THREE, name_t, 3
    tell FULL                   # ffffffff, 0
    on SEMAPHORE_PUT, FULL
    keep                        # 00
    tell FULL                   # 0, 0
    get FULL
    keep                        # 0d
    ceiling_put THREE, 0        # 22
    ceiling_put THREE, 2        # 21
    ceiling_put THREE, 3        # 21
    tell THREE                  # 3, 0
    ceiling_put THREE, 4        # 00
    tell THREE                  # 4, 0
    ceiling_put THREE, 4        # 21
    ceiling_put FULL, 0         # 22
    ceiling_put FULL, -1        # 00
    get THREE
    keep                        # 00
    j .
name_f:
    name "full"
name_t:
    name "three"
end:
