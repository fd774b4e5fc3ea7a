// A small object of the layer's own, freed at the end of each collection and made again at once. Trusted, not proved.
//
// What it owes the core, of mpheap.h:
//
//   "the address was told by mpheap_written first,    the layer tells no page while no cycle marks. But nothing is owed "after a mpheap_free
//   after the last .. mpheap_finish .."               until the next of these": the core needs a full cycle then (needs_full_after), and
//                                                     the program writes nothing between the end and this free.
//
// The cell that was freed is there for the object that is made, so that this is never refused.
// Counted under the rest.
#include "layer.h"

enum { SPARE = 2 };  // the register that keeps it

void mpgc_make_spare(void)
{
    uint64_t base;
    uint32_t status;
    CALL(status, mpheap_alloc_pointer_free_base(&mpgc.heap, mpgc.slot, SPARE, 1, &base));
    if (status != MPHEAP_OK) mpgc_stop("the heap has no room for a word");
    (void)mpgc_learn(base, 1, POINTER_FREE);
}

void mpgc_need_full_cycle(void)
{
    GRANTED(mpheap_free(&mpgc.heap, mpgc.slot, SPARE));
    mpgc_make_spare();
}
