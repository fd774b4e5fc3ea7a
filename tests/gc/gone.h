/* Objects that tell whether they are there still, by hidden places. */
#ifndef GONE_H
#define GONE_H
#include <stdint.h>
#include "gc.h"
#include "check.h"

#define NOINLINE __attribute__((noinline))
enum { MANY = 40, LONG = 200 };

static NOINLINE void clear_stack(void)
{
    volatile char room[20000];
    for (size_t k = 0; k < sizeof room; k++) room[k] = 0;
}
static NOINLINE void collect(void)
{
    for (int k = 0; k < 3; k++) {
        clear_stack();
        GC_gcollect();
    }
    for (int k = 0; k < 20000; k++) *(int *)GC_malloc(16 + k % 40) = 1;
}

/* An object with a number, and hidden places that tell whether it is there. */
static GC_hidden_pointer hidden[LONG];
static NOINLINE uint64_t *named(int k)
{
    uint64_t *object = GC_malloc(24);
    object[0] = 1000 + (uint64_t)k;
    hidden[k] = GC_HIDE_POINTER(object);
    GC_general_register_disappearing_link((void **)&hidden[k], object);
    return object;
}
static inline int count_gone(int from, int to)
{
    int gone = 0;
    for (int k = from; k < to; k++) gone += hidden[k] == 0;
    return gone;
}
static inline void forget_all(void)
{
    for (int k = 0; k < LONG; k++) GC_unregister_disappearing_link((void **)&hidden[k]);
    memset(hidden, 0, sizeof hidden);
}
#endif
