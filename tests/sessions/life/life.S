# Makes a thread, and then asks for everything that a thread goes through. After each call its answer is kept, from offset 192
# on; what thread_info_get wrote last is from 160 on.
    .include "txboard.inc"
    .include "thread.inc"
    .macro keep
    sw a0, 0(s1)
    addi s1, s1, 4
    .endm
    preamble data_size=320
shell:
    jr a0
start:
    addi s1, gp, 192
    thread name, other, 9, 6, 64
    keep                        # 00
    li a1, 3
    addi a2, gp, 12
    mv a0, s0
    call THREAD_TIME_SLICE_CHANGE
    keep                        # 00
    mv a0, s0
    call THREAD_DELETE
    keep                        # 11: it has not ended
    mv a0, s0
    call THREAD_RESET
    keep                        # 20: it has not ended
    mv a0, s0
    call THREAD_RESUME          # it is more urgent, runs at once and ends itself
    keep                        # 00
    mv a0, s0
    call THREAD_RESUME
    keep                        # 12: it has ended
    mv a0, s0
    call THREAD_SUSPEND
    keep                        # 14: it has ended
    mv a0, s0
    call THREAD_RESET
    keep                        # 00
    mv a0, s0
    addi a1, gp, 160
    call THREAD_INFO_GET
    keep                        # 00
    mv a0, s0
    call THREAD_TERMINATE
    keep                        # 00
    mv a0, s0
    call THREAD_DELETE
    keep                        # 00
    mv a0, s0
    addi a1, gp, 160
    call THREAD_INFO_GET
    keep                        # 0e: the slot has no thread
    mv a0, s0
    call OBJECT_DEALLOCATE
    keep                        # 00
    mv a0, s0
    call OBJECT_DEALLOCATE
    keep                        # 03
    li a0, 1
    addi a1, gp, 2
    call OBJECT_ALLOCATE
    keep                        # 03: 4 does not divide the pointer
    li a0, 1
    li a1, 64
    call OBJECT_ALLOCATE
    keep                        # f4: the memory is not the module's
    li a0, 9
    addi a1, gp, 0
    call OBJECT_ALLOCATE
    keep                        # 08: there is no such kind
    j .
other:
    count 8
    call THREAD_COMPLETE
name:
    name "a-name-of-exactly-31-bytes-abcd"
end:
