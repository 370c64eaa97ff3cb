# A module with a callback entry, of priority 3: both threads run the same code, the callback thread first, and tell their
# reference and the top of their stack.
    .include "txboard.inc"
    .include "thread.inc"
image:
    .word 0x4D4F4455, 6, 0, 32, 1, 3
    .word shell - image, start - image, 0, 10, 256
    .word callback - image, 3, 65
    .word end - image, 64
    .fill 16, 4, 0
shell:
    jr a0
callback:
    call THREAD_IDENTIFY
    sw a0, 8(gp)
    sw sp, 12(gp)
    call THREAD_COMPLETE
start:
    call THREAD_IDENTIFY
    sw a0, 16(gp)
    sw sp, 20(gp)
    j .
end:
