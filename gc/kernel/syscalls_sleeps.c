// Sleeps that a signal interrupts, and so a stop, and what is left of them. The kernel says how long it is until the sleep would have ended at the
// latest, some 50 us behind its end: so where stops come more often than that, a program that sleeps on for what is left would never wake. Here the
// clock says it. Only in libmpgc.so.
#include "next.h"
#include <errno.h>
#include <sys/syscall.h>
#include <threads.h>
#include <time.h>

struct sleep { clockid_t clock; struct timespec wanted, start; };

// A sleep for some time goes on as it did where somebody sets the time.
static clockid_t measured_by(clockid_t clock) { return clock == CLOCK_REALTIME || clock == CLOCK_TAI ? CLOCK_MONOTONIC : clock; }

static struct timespec now_by(clockid_t clock)
{
    struct timespec now = { 0, 0 };
    mpgc_call_kernel(SYS_clock_gettime, clock, &now);
    return now;
}

static struct sleep begins(clockid_t clock, const struct timespec *wanted) { return (struct sleep){ clock, *wanted, now_by(clock) }; }

static struct timespec minus(struct timespec one, struct timespec other)
{
    enum { SECOND = 1000000000 };
    bool borrows = one.tv_nsec < other.tv_nsec;
    return (struct timespec){ one.tv_sec - other.tv_sec - borrows, one.tv_nsec - other.tv_nsec + (borrows ? SECOND : 0) };
}

static bool is_less(const struct timespec *one, const struct timespec *other)
{
    return one->tv_sec < other->tv_sec || (one->tv_sec == other->tv_sec && one->tv_nsec < other->tv_nsec);
}

static void tell_left(const struct sleep *sleep, struct timespec *left)
{
    struct timespec rest = minus(sleep->wanted, minus(now_by(sleep->clock), sleep->start));
    if (rest.tv_sec < 0) rest = (struct timespec){ 0, 0 };
    if (is_less(&rest, left)) *left = rest;
}

#define SLEEPS(name, words, values, clock, is_interrupted) \
    SHOWN int name words \
    { \
        NEXT(int, name, words); \
        if (!wanted || !left) return next values; \
        struct sleep sleep = begins(clock, wanted); \
        mpgc_will_write(left, sizeof *left); \
        int said = next values; \
        if (is_interrupted) tell_left(&sleep, left); \
        mpgc_wrote(); \
        return said; \
    }
SLEEPS(nanosleep, (const struct timespec *wanted, struct timespec *left), (wanted, left), CLOCK_MONOTONIC, said == -1 && errno == EINTR)
SLEEPS(clock_nanosleep, (clockid_t clock, int flags, const struct timespec *wanted, struct timespec *left), (clock, flags, wanted, left),
       measured_by(clock), said == EINTR && !(flags & TIMER_ABSTIME))
SLEEPS(thrd_sleep, (const struct timespec *wanted, struct timespec *left), (wanted, left), CLOCK_MONOTONIC, said == -1)
