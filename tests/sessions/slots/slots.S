# Takes slots 1 to 5, gives slot 5 back and takes it again; then a service is asked with the old reference, and with the new
# one. Then it asks for slots until there is none, counts how often it asked, and completes. The start thread is in slot 0.
    .include "txboard.inc"
    .include "thread.inc"
    preamble data_size=64
shell:
start:
    li s0, 5
first:
    li a0, 1
    addi a1, gp, 8
    call OBJECT_ALLOCATE
    addi s0, s0, -1
    bnez s0, first
    lw s1, 8(gp)                # the old reference of slot 5
    mv a0, s1
    call OBJECT_DEALLOCATE
    li a0, 1
    addi a1, gp, 12
    call OBJECT_ALLOCATE
    mv a0, s1
    call OBJECT_DEALLOCATE
    sw a0, 16(gp)
    mv a0, s1
    call THREAD_RESUME
    sw a0, 20(gp)
    lw a0, 12(gp)
    call THREAD_RESUME          # the slot has no thread yet
    sw a0, 24(gp)
more:
    count 28
    li a0, 2
    addi a1, gp, 32
    call OBJECT_ALLOCATE
    beqz a0, more
    sw a0, 36(gp)
    call THREAD_COMPLETE
end:
