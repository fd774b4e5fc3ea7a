/* A heap of some 300 megabytes in small steps, in which every second page has an ordinary object: more runs of such pages than may be protected
 * one by one. So collections are full ones, which begin and end in one request, and no cycle reads most of the heap again at its end. */
#define _GNU_SOURCE
#include "gc.h"
#include "check.h"

enum { PAIRS = 36000, BYTES = 4000, COLLECTIONS = 6, MOST = 1000000 };
static void *table[2 * PAIRS];
static unsigned long requests, begun_at;
static int full, cycles;

static void on_event(GC_EventType event)
{
    if (event == GC_EVENT_START) begun_at = requests;
    if (event != GC_EVENT_END) return;
    full += requests == begun_at;
    cycles += requests != begun_at;
}

static void *ask(unsigned long k) { return k % 2 ? GC_malloc_atomic(BYTES) : GC_malloc(BYTES); }

int main(void)
{
    GC_INIT();
    for (unsigned long k = 0; k < 2 * PAIRS; k++) {
        table[k] = ask(k);
        *(unsigned long *)table[k] = k;
    }
    GC_set_on_collection_event(on_event);
    GC_enable_incremental();
    for (; full + cycles < COLLECTIONS && requests < MOST; requests++) *(unsigned long *)ask(requests) = ~0ul;
    CHECK(full == COLLECTIONS);
    CHECK(cycles == 0);
    int are_there = 1;
    for (unsigned long k = 0; k < 2 * PAIRS; k++) are_there = are_there && *(unsigned long *)table[k] == k;
    CHECK(are_there);
    return check_ends();
}
