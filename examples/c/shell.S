# The shell entry, at which every thread of the module begins: a0 is the thread's own entry, a1 its input, sp the
# top of its stack, gp the base of the module's data. The start thread first puts the first values of the data in
# place; then each thread calls its entry, and is completed when that returns.
    .section .text.shell, "ax"
    .globl shell
shell:
    lla t0, module_start
    bne a0, t0, run             # another thread: the data is in place
    lla t0, data_values
    lla t2, data_values_end
    mv t1, gp
copy:
    bgeu t0, t2, run
    lw t3, 0(t0)
    sw t3, 0(t1)
    addi t0, t0, 4
    addi t1, t1, 4
    j copy
run:
    mv t0, a0
    mv a0, a1
    jalr t0
    li a7, 0x1F                 # thread_complete
    ecall
