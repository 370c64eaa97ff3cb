/* A meter, of the first supplier. Its thread "meter" takes a reading and suspends itself; whoever wants the
 * next reading resumes it. It lets no other module write its data. */
#include "txboard.h"

TXB_SHOWN static ULONG readings = 0; /* the number of readings taken: at offset 0 */
TXB_SHOWN static ULONG energy = 100; /* their sum, from 100 on: at offset 4 */
static ULONG stack[64];
static TX_THREAD meter;

static ULONG sample(ULONG seed) { return seed * seed % 7 + 1; }

static VOID measure(ULONG step) {
    for (;;) {
        energy += step * sample(readings);
        readings++;
        tx_thread_suspend(tx_thread_identify());
    }
}

VOID module_start(ULONG input) {
    (void)input;
    if (txm_module_object_allocate(TXM_THREAD_OBJECT, &meter) == TX_SUCCESS)
        tx_thread_create(meter, "meter", measure, 10, stack, sizeof stack, 8, 8, TX_NO_TIME_SLICE, TX_DONT_START);
}
