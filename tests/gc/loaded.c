/* An object that is loaded while the program runs (process.c): its static data, its thread-local data, and requests that it makes while
 * it is being loaded. */
#include "gc.h"

#define SHOWN __attribute__((visibility("default")))
enum { MANY = 100 };

static void *in_static[MANY], *first;
static _Thread_local void *in_local[MANY];

SHOWN void **static_place(void);
SHOWN void **local_place(void);
SHOWN void *made_first(void);
void **static_place(void) { return in_static; }
void **local_place(void) { return in_local; }
void *made_first(void) { return first; }

__attribute__((constructor)) static void asks(void)
{
    first = GC_malloc(100);
    GC_gcollect();
}
