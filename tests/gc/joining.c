/* Threads that are waited for with a limit, by libmpgc's names for the C library's calls: what they answer and keep. */
#define _GNU_SOURCE
#include <errno.h>
#include <pthread.h>
#include <stdatomic.h>
#include <signal.h>
#include <time.h>
#define GC_THREADS
#include "gc.h"
#include "check.h"

static atomic_int may_end;
static void *wait_and_make(void *data)
{
    (void)data;
    while (!may_end) GC_malloc(16);
    return GC_STRDUP("made by a thread");
}

/* The thread is there for as long, and then its answer. */
static void joins(int (*join)(pthread_t, void **))
{
    pthread_t thread;
    void *answer = NULL;
    may_end = 0;
    CHECK(pthread_create(&thread, NULL, wait_and_make, NULL) == 0);
    int first = join(thread, &answer);
    CHECK((first == EBUSY || first == ETIMEDOUT) && !answer);
    may_end = 1;
    int status;
    while ((status = join(thread, &answer)) == EBUSY || status == ETIMEDOUT) GC_gcollect();
    CHECK(status == 0 && answer && strcmp(answer, "made by a thread") == 0 && GC_base(answer) == answer);
}

static struct timespec soon(clockid_t clock)
{
    struct timespec until;
    clock_gettime(clock, &until);
    until.tv_nsec += 20 * 1000 * 1000;
    if (until.tv_nsec >= 1000 * 1000 * 1000) until.tv_sec++, until.tv_nsec -= 1000 * 1000 * 1000;
    return until;
}
static int timed(pthread_t thread, void **answer)
{
    struct timespec until = soon(CLOCK_REALTIME);
    return pthread_timedjoin_np(thread, answer, &until);
}
static int clocked(pthread_t thread, void **answer)
{
    struct timespec until = soon(CLOCK_MONOTONIC);
    return pthread_clockjoin_np(thread, answer, CLOCK_MONOTONIC, &until);
}

int main(void)
{
    GC_INIT();
    joins(pthread_tryjoin_np);
    joins(timed);
    joins(clocked);
    return check_ends();
}
