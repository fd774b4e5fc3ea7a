/* What threads of a test do beside the others, until that is over. */
#ifndef BESIDE_H
#define BESIDE_H
#include <time.h>
#include "gc.h"

static _Atomic int is_over;

/* A stop interrupts it. By what the kernel says is left it might never end (sleeping.c), so it sleeps until a time. */
static inline void rest(double seconds)
{
    enum { SECOND = 1000000000 };
    struct timespec until;
    clock_gettime(CLOCK_MONOTONIC, &until);
    long part = until.tv_nsec + (long)((seconds - (double)(time_t)seconds) * SECOND);
    until = (struct timespec){ until.tv_sec + (time_t)seconds + part / SECOND, part % SECOND };
    while (clock_nanosleep(CLOCK_MONOTONIC, TIMER_ABSTIME, &until, NULL) != 0) continue;
}

static inline void *collect(void *data)
{
    while (!is_over) GC_gcollect();
    return data;
}

static inline void *ask_once(void *data)
{
    GC_malloc(16);
    return data;
}
#endif
