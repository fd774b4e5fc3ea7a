/* A cycle that marks while the test goes on, and objects on pages that are closed then, or never. */
#ifndef CYCLE_H
#define CYCLE_H
#include "gc.h"

enum { COUNT = 400 };
static char *ordinary[COUNT], *atomic[COUNT];

/* A cycle marks, and pages of ordinary objects are closed. */
static inline void begin(void)
{
    for (int k = 0; k < COUNT; k++) {
        ordinary[k] = GC_malloc(2000);
        atomic[k] = GC_malloc_atomic(2000);
    }
    GC_gcollect();
    GC_start_incremental_collection();
}

static inline void end(void)
{
    while (GC_collect_a_little()) continue;
}
#endif
