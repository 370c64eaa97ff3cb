/* A radio, of the second supplier. Each interrupt of the board's device "antenna" resumes its thread "radio",
 * which counts a frame and asks the meter of the other supplier for a reading by resuming its thread. */
#include "txboard.h"

TXB_SHOWN static ULONG frames = 0; /* the number of frames: at offset 0 */
TXB_SHOWN static ULONG refused = 0; /* the number of times that the meter was not there, or still busy: at offset 4 */
static ULONG stack[64];
static TX_THREAD radio, meter;

static VOID serve(ULONG input) {
    (void)input;
    for (;;) {
        frames++;
        if (meter == 0)
            txm_module_object_pointer_get(TXM_THREAD_OBJECT, "meter", &meter);
        if (tx_thread_resume(meter) != TX_SUCCESS)
            refused++;
        tx_thread_suspend(radio);
    }
}

VOID module_start(ULONG input) {
    (void)input;
    if (txm_module_object_allocate(TXM_THREAD_OBJECT, &radio) == TX_SUCCESS)
        tx_thread_create(radio, "radio", serve, 0, stack, sizeof stack, 4, 4, TX_NO_TIME_SLICE, TX_DONT_START);
}
