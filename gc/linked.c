// The C library's functions that stand behind the layer's own where the loader knows of none: in a program that is linked statically, with
// libmpgc.a, which takes the place of two of them at most. Of these the linker knows there what they are made of.
// Counted under threads.
#include "layer.h"
#include <errno.h>
#include <string.h>
#include <threads.h>

// Of the C library, and in such a program alone. What brings the first there is C11's tss_set, and pthread_join the second.
extern int __pthread_setspecific(pthread_key_t key, const void *value) __attribute__((weak));
extern int __pthread_clockjoin_ex(pthread_t thread, void **answer, clockid_t clock, const struct timespec *until, bool waits)
    __attribute__((weak));
HIDDEN int (*const mpgc_brings)(tss_t, void *) = tss_set;

static int clockjoin(pthread_t thread, void **answer, clockid_t clock, const struct timespec *until)
{
    return __pthread_clockjoin_ex ? __pthread_clockjoin_ex(thread, answer, clock, until, true) : ENOSYS;
}
static int timedjoin(pthread_t thread, void **answer, const struct timespec *until) { return clockjoin(thread, answer, CLOCK_REALTIME, until); }
static int tryjoin(pthread_t thread, void **answer)
{
    int status = timedjoin(thread, answer, &(struct timespec){ 0 });
    return status == ETIMEDOUT ? EBUSY : status;
}

uintptr_t mpgc_linked(const char *name)
{
    const struct { const char *name; uintptr_t function; } behind[] = {
        { "pthread_create", (uintptr_t)pthread_create }, { "pthread_exit", (uintptr_t)pthread_exit }, { "pthread_join", (uintptr_t)pthread_join },
        { "pthread_detach", (uintptr_t)pthread_detach }, { "pthread_setspecific", (uintptr_t)__pthread_setspecific },
        { "pthread_clockjoin_np", (uintptr_t)clockjoin }, { "pthread_timedjoin_np", (uintptr_t)timedjoin },
        { "pthread_tryjoin_np", (uintptr_t)tryjoin },
    };
    for (size_t k = 0; k < sizeof behind / sizeof *behind; k++)
        if (strcmp(behind[k].name, name) == 0) return behind[k].function;
    return 0;
}
