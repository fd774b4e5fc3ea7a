/* What a program says by macros, before the header, GC_INIT does. The same source runs over bdwgc where that is installed. */
#define _GNU_SOURCE
#include <signal.h>
#define GC_DONT_GC
#define GC_IGNORE_WARN
#define GC_INITIAL_HEAP_SIZE (1 << 20)
#define GC_MAXIMUM_HEAP_SIZE (2 << 20)
#define GC_FREE_SPACE_DIVISOR 5
#include "gc.h"
#include "check.h"

int main(void)
{
    GC_INIT();
    GC_INIT(); /* once more is harmless */
    CHECK(GC_is_disabled() && GC_get_warn_proc() == GC_ignore_warn_proc && GC_get_free_space_divisor() == 5);
    CHECK(GC_get_heap_size() >= 1 << 20 && GC_get_heap_size() <= 2 << 20);
    size_t bytes = 0;
    while (bytes < 3 << 20 && GC_malloc(1000)) bytes += 1000;
    CHECK(bytes > 3 << 19 && bytes <= 2 << 20 && GC_get_gc_no() == 0);
    return check_ends();
}
