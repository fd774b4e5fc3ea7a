/* A stand-in for libgc.so.1, which a program is linked with: each request of it aborts. Under LD_PRELOAD=libmpgc.so none comes here. */
#include <stddef.h>
#include <stdlib.h>
void *GC_malloc(size_t bytes);
void *GC_malloc(size_t bytes)
{
    (void)bytes;
    abort();
}
void GC_init(void);
void GC_init(void) { abort(); }
void GC_gcollect(void);
void GC_gcollect(void) { abort(); }
