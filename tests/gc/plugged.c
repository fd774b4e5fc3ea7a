/* Part of a program that knows nothing of the collector: it is linked with it, loaded, called, and taken away (plugging.c). */
#ifdef OTHER
#include <gc/gc.h>
#else
#include "gc.h"
#endif

int use(int incremental);
int use(int incremental)
{
    void **list = 0;
    GC_INIT();
    if (incremental) GC_enable_incremental();
    for (int k = 0; k < 100000; k++) {
        void **next = GC_MALLOC(32);
        next[0] = k % 1000 ? list : 0;
        list = next;
    }
    GC_gcollect();
    int count = 0;
    for (; list; list = *list) count++;
    return count;
}
