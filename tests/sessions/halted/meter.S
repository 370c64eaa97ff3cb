# Makes a thread "meter", which takes a reading (adds one to the word at offset 80) each time it is resumed; the third one is a
# store outside its regions.
    .include "txboard.inc"
    .include "thread.inc"
    preamble data_size=192, priority=16
shell:
    jr a0
start:
    thread name, meter, 8, 8, 128
    call THREAD_COMPLETE
meter:
    count 80
    li t2, 3
    bne t1, t2, done
    sw t1, 0(zero)
done:
    suspend
    j meter
name:
    name "meter"
end:
