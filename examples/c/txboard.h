/* The services of txboard for modules in C, under their ThreadX names.
 *
 * A service is an ECALL with its number in a7 and its arguments in a0 to a6; the status or value comes back
 * in a0, and no other register changes. Objects are named by references: a word that
 * txm_module_object_allocate or txm_module_object_pointer_get gives. Pointers are to memory that the module
 * may use, and 4 divides them. docs/MODULES.md has the whole interface on one page.
 *
 * What is here is what is built. A number without a service answers TX_FEATURE_NOT_ENABLED. */
#ifndef TXBOARD_H
#define TXBOARD_H

typedef unsigned int UINT;
typedef unsigned int ULONG; /* 32 bits, as a register */
typedef char CHAR;
typedef void VOID;

typedef ULONG TX_THREAD; /* a reference to a thread; 0 is none */
typedef ULONG TX_QUEUE; /* a reference to a message queue */
typedef ULONG TX_SEMAPHORE; /* a reference to a counting semaphore */

/* Status codes (ThreadX User Guide, "Return Values"); TXM_MODULE_INVALID_MEMORY is after the Modules guide */
#define TX_SUCCESS 0x00
#define TX_DELETED 0x01
#define TX_POOL_ERROR 0x02
#define TX_PTR_ERROR 0x03
#define TX_SIZE_ERROR 0x05
#define TX_GROUP_ERROR 0x06
#define TX_NO_EVENTS 0x07
#define TX_OPTION_ERROR 0x08
#define TX_QUEUE_ERROR 0x09
#define TX_QUEUE_EMPTY 0x0A
#define TX_QUEUE_FULL 0x0B
#define TX_SEMAPHORE_ERROR 0x0C
#define TX_NO_INSTANCE 0x0D
#define TX_THREAD_ERROR 0x0E
#define TX_PRIORITY_ERROR 0x0F
#define TX_NO_MEMORY 0x10
#define TX_START_ERROR 0x10
#define TX_DELETE_ERROR 0x11
#define TX_RESUME_ERROR 0x12
#define TX_CALLER_ERROR 0x13
#define TX_SUSPEND_ERROR 0x14
#define TX_TIMER_ERROR 0x15
#define TX_TICK_ERROR 0x16
#define TX_ACTIVATE_ERROR 0x17
#define TX_THRESH_ERROR 0x18
#define TX_SUSPEND_LIFTED 0x19
#define TX_WAIT_ABORTED 0x1A
#define TX_WAIT_ABORT_ERROR 0x1B
#define TX_MUTEX_ERROR 0x1C
#define TX_NOT_AVAILABLE 0x1D
#define TX_NOT_OWNED 0x1E
#define TX_INHERIT_ERROR 0x1F
#define TX_NOT_DONE 0x20
#define TX_CEILING_EXCEEDED 0x21
#define TX_INVALID_CEILING 0x22
#define TXM_MODULE_INVALID_MEMORY 0xF4
#define TX_FEATURE_NOT_ENABLED 0xFF

/* States of a thread, as tx_thread_info_get and a report give them */
#define TX_READY 0
#define TX_COMPLETED 1
#define TX_TERMINATED 2
#define TX_SUSPENDED 3
#define TX_SLEEP 4
#define TX_QUEUE_SUSP 5
#define TX_SEMAPHORE_SUSP 6
#define TX_EVENT_FLAG 7
#define TX_BLOCK_MEMORY 8
#define TX_BYTE_MEMORY 9
#define TX_MUTEX_SUSP 13

/* Kinds of objects */
#define TXM_THREAD_OBJECT 1
#define TXM_QUEUE_OBJECT 2
#define TXM_SEMAPHORE_OBJECT 3
#define TXM_MUTEX_OBJECT 4
#define TXM_EVENT_FLAGS_OBJECT 5
#define TXM_BYTE_POOL_OBJECT 6
#define TXM_BLOCK_POOL_OBJECT 7
#define TXM_TIMER_OBJECT 8

/* How many ticks a call waits at most that can't be served at once: none, any number, or without end */
#define TX_NO_WAIT 0
#define TX_WAIT_FOREVER 0xFFFFFFFFU

#define TX_NO_TIME_SLICE 0
#define TX_AUTO_START 1
#define TX_DONT_START 0

/* What tx_thread_info_get writes, eight words */
typedef struct {
    ULONG state;
    ULONG suspend_held; /* 1 where a suspension waits for the thread's own wait to end */
    ULONG priority; /* as set */
    ULONG threshold; /* as set */
    ULONG effective_priority;
    ULONG effective_threshold;
    ULONG time_slice; /* in ticks; 0 for none */
    ULONG remaining_slice;
} TX_THREAD_INFO;

/* What tx_queue_info_get writes, three words */
typedef struct {
    ULONG enqueued; /* messages in the queue */
    ULONG available; /* how many more it has room for */
    ULONG suspended; /* threads that wait for it */
} TX_QUEUE_INFO;

/* What tx_semaphore_info_get writes, two words */
typedef struct {
    ULONG count;
    ULONG suspended; /* threads that wait for it */
} TX_SEMAPHORE_INFO;

/* Words that a board's report is to show: they lie first in the module's data, in the order in which they are defined,
 * so the first is at offset 0, the second at 4. */
#define TXB_SHOWN __attribute__((section(".data.shown")))

/* One call: the number in a7, the arguments from a0 on */
static inline ULONG txb_call(ULONG number, ULONG first, ULONG second, ULONG third) {
    register ULONG a0 __asm__("a0") = first;
    register ULONG a1 __asm__("a1") = second;
    register ULONG a2 __asm__("a2") = third;
    register ULONG a7 __asm__("a7") = number;
    __asm__ volatile("ecall" : "+r"(a0) : "r"(a1), "r"(a2), "r"(a7) : "memory");
    return a0;
}

/* The same with five arguments */
static inline ULONG txb_call5(ULONG number, ULONG first, ULONG second, ULONG third, ULONG fourth, ULONG fifth) {
    register ULONG a0 __asm__("a0") = first;
    register ULONG a1 __asm__("a1") = second;
    register ULONG a2 __asm__("a2") = third;
    register ULONG a3 __asm__("a3") = fourth;
    register ULONG a4 __asm__("a4") = fifth;
    register ULONG a7 __asm__("a7") = number;
    __asm__ volatile("ecall" : "+r"(a0) : "r"(a1), "r"(a2), "r"(a3), "r"(a4), "r"(a7) : "memory");
    return a0;
}

/* Slots and references */

/* Takes the lowest usable slot for an object of this kind, and gives its reference. */
static inline UINT txm_module_object_allocate(UINT kind, ULONG *reference) {
    return txb_call(0x01, kind, (ULONG)reference, 0);
}

/* Gives a slot back in which no object is created. */
static inline UINT txm_module_object_deallocate(ULONG reference) {
    return txb_call(0x02, reference, 0, 0);
}

/* Finds the object of this kind and name, whichever module made it, and gives its reference. */
static inline UINT txm_module_object_pointer_get(UINT kind, const CHAR *name, ULONG *reference) {
    return txb_call(0x03, kind, (ULONG)name, (ULONG)reference);
}

/* Threads */

/* Makes a thread in an allocated slot. The stack is the module's own memory, of at least 64 bytes. A threshold
 * equal to the priority switches preemption-threshold off. */
static inline UINT tx_thread_create(TX_THREAD thread, const CHAR *name, VOID (*entry)(ULONG), ULONG input,
                                    VOID *stack, ULONG stack_size, UINT priority, UINT threshold,
                                    ULONG time_slice, UINT auto_start) {
    ULONG block[8] = {(ULONG)entry, input, (ULONG)stack, stack_size, priority, threshold, time_slice, auto_start};
    return txb_call(0x10, thread, (ULONG)name, (ULONG)block);
}

/* Removes a thread that is completed or terminated. Only its own module may. */
static inline UINT tx_thread_delete(TX_THREAD thread) { return txb_call(0x11, thread, 0, 0); }

/* Ends a thread for good, until it is reset. */
static inline UINT tx_thread_terminate(TX_THREAD thread) { return txb_call(0x12, thread, 0, 0); }

/* Suspends a thread, which may be the caller. */
static inline UINT tx_thread_suspend(TX_THREAD thread) { return txb_call(0x13, thread, 0, 0); }

/* Makes a suspended thread ready, or lifts a held suspension (TX_SUSPEND_LIFTED). */
static inline UINT tx_thread_resume(TX_THREAD thread) { return txb_call(0x14, thread, 0, 0); }

/* The caller sleeps for this many ticks, and goes on at once where they are 0. */
static inline UINT tx_thread_sleep(ULONG ticks) { return txb_call(0x15, ticks, 0, 0); }

/* Lets the other ready threads of the caller's priority run first. */
static inline VOID tx_thread_relinquish(VOID) { txb_call(0x16, 0, 0, 0); }

/* The caller's reference. */
static inline TX_THREAD tx_thread_identify(VOID) { return txb_call(0x17, 0, 0, 0); }

static inline UINT tx_thread_info_get(TX_THREAD thread, TX_THREAD_INFO *info) {
    return txb_call(0x18, thread, (ULONG)info, 0);
}

/* Sets the preemption-threshold, and gives the old one. */
static inline UINT tx_thread_preemption_change(TX_THREAD thread, UINT threshold, UINT *old) {
    return txb_call(0x19, thread, threshold, (ULONG)old);
}

/* Sets priority and threshold to this priority, and gives the old priority. */
static inline UINT tx_thread_priority_change(TX_THREAD thread, UINT priority, UINT *old) {
    return txb_call(0x1A, thread, priority, (ULONG)old);
}

/* Sets the time slice, in ticks, and gives the old one. */
static inline UINT tx_thread_time_slice_change(TX_THREAD thread, ULONG slice, ULONG *old) {
    return txb_call(0x1B, thread, slice, (ULONG)old);
}

/* Ends the wait of a thread, whose call answers TX_WAIT_ABORTED. */
static inline UINT tx_thread_wait_abort(TX_THREAD thread) { return txb_call(0x1C, thread, 0, 0); }

/* Sets a completed or terminated thread back to its entry; it is suspended until it is resumed. */
static inline UINT tx_thread_reset(TX_THREAD thread) { return txb_call(0x1D, thread, 0, 0); }

/* Ends the caller, as its return from its entry does. */
static inline VOID txb_thread_complete(VOID) { txb_call(0x1F, 0, 0, 0); }

/* Message queues: messages of one size, 1 to 16 words, in order */

/* Makes a queue in an allocated slot, of as many messages as the area holds, which has at most 4,096 bytes. The area is
 * the module's own memory; the kernel keeps the messages itself, and never writes there. */
static inline UINT tx_queue_create(TX_QUEUE queue, const CHAR *name, UINT message_words, VOID *area, ULONG area_size) {
    return txb_call5(0x20, queue, (ULONG)name, message_words, (ULONG)area, area_size);
}

/* Removes a queue. Only its own module may. Whoever waits for it gets TX_DELETED. */
static inline UINT tx_queue_delete(TX_QUEUE queue) { return txb_call(0x21, queue, 0, 0); }

/* Sends a message, to the first thread that waits for one, or else to the end of the queue. Where there is no room the call
 * waits for this many ticks at most, and then answers TX_QUEUE_FULL. */
static inline UINT tx_queue_send(TX_QUEUE queue, const VOID *message, ULONG wait) {
    return txb_call(0x22, queue, (ULONG)message, wait);
}

/* The same, but to the front of the queue. */
static inline UINT tx_queue_front_send(TX_QUEUE queue, const VOID *message, ULONG wait) {
    return txb_call(0x23, queue, (ULONG)message, wait);
}

/* Takes the first message and writes it there. Where there is none the call waits for this many ticks at most, and then
 * answers TX_QUEUE_EMPTY. */
static inline UINT tx_queue_receive(TX_QUEUE queue, VOID *message, ULONG wait) {
    return txb_call(0x24, queue, (ULONG)message, wait);
}

/* Empties a queue; who waits to send gets TX_SUCCESS, and its message is dropped too. */
static inline UINT tx_queue_flush(TX_QUEUE queue) { return txb_call(0x25, queue, 0, 0); }

/* The most urgent thread that waits for the queue goes first. */
static inline UINT tx_queue_prioritize(TX_QUEUE queue) { return txb_call(0x26, queue, 0, 0); }

static inline UINT tx_queue_info_get(TX_QUEUE queue, TX_QUEUE_INFO *info) {
    return txb_call(0x27, queue, (ULONG)info, 0);
}

/* Counting semaphores */

/* Makes a semaphore in an allocated slot, which counts so many instances. */
static inline UINT tx_semaphore_create(TX_SEMAPHORE semaphore, const CHAR *name, ULONG count) {
    return txb_call(0x30, semaphore, (ULONG)name, count);
}

/* Removes a semaphore. Only its own module may. Whoever waits for it gets TX_DELETED. */
static inline UINT tx_semaphore_delete(TX_SEMAPHORE semaphore) { return txb_call(0x31, semaphore, 0, 0); }

/* Takes an instance. Where there is none the call waits for this many ticks at most, and then answers TX_NO_INSTANCE. */
static inline UINT tx_semaphore_get(TX_SEMAPHORE semaphore, ULONG wait) {
    return txb_call(0x32, semaphore, wait, 0);
}

/* Gives an instance, to the first thread that waits for one, or else to the count. */
static inline UINT tx_semaphore_put(TX_SEMAPHORE semaphore) { return txb_call(0x33, semaphore, 0, 0); }

/* The same, but TX_CEILING_EXCEEDED where it counts that many already. */
static inline UINT tx_semaphore_ceiling_put(TX_SEMAPHORE semaphore, ULONG ceiling) {
    return txb_call(0x34, semaphore, ceiling, 0);
}

/* The most urgent thread that waits for the semaphore goes first. */
static inline UINT tx_semaphore_prioritize(TX_SEMAPHORE semaphore) { return txb_call(0x35, semaphore, 0, 0); }

static inline UINT tx_semaphore_info_get(TX_SEMAPHORE semaphore, TX_SEMAPHORE_INFO *info) {
    return txb_call(0x36, semaphore, (ULONG)info, 0);
}

#endif
