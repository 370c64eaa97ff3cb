# The shell entry of the compiled image. At its start sp is the top of the stack, gp the base of the data and
# a0 the address of the start entry, which it calls after it has put the first values of the data in place.
    .section .text.shell, "ax"
    .globl shell, call
shell:
    lui t0, %hi(data_values)
    addi t0, t0, %lo(data_values)
    mv t1, gp
    lui t2, %hi(data_bytes)
    addi t2, t2, %lo(data_bytes)
    add t2, t2, gp
copy:
    bgeu t1, t2, copied
    lw t3, 0(t0)
    sw t3, 0(t1)
    addi t0, t0, 4
    addi t1, t1, 4
    j copy
copied:
    jalr a0
    lui t0, %hi(results)
    addi t0, t0, %lo(results)
    lw a0, 0(t0)
    lw a1, 4(t0)
    lw a2, 8(t0)
    lw a3, 12(t0)
    lw a4, 16(t0)
call:
    ecall
