# Of another supplier. Finds the thread "meter" by its name and resumes it four times; keeps what is answered. After the meter's
# fault it looks for the name once more.
    .include "txboard.inc"
    .include "thread.inc"
    preamble data_size=64, priority=20, supplier=2
shell:
start:
    li a0, 1
    lla a1, name
    addi a2, gp, 8
    call OBJECT_POINTER_GET
    sw a0, 12(gp)
    addi s0, gp, 16
    li s1, 4
again:
    lw a0, 8(gp)
    call THREAD_RESUME
    sw a0, 0(s0)
    addi s0, s0, 4
    addi s1, s1, -1
    bnez s1, again
    li a0, 1
    lla a1, name
    addi a2, gp, 8
    call OBJECT_POINTER_GET
    sw a0, 32(gp)
    j .
name:
    name "meter"
end:
