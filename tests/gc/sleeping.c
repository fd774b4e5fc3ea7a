/* Sleeps that a signal interrupts again and again, as stops do: what is left of one, by each call that says it, is never more than it was, nor
 * less than time has passed, wherever it is told. So who sleeps on for what is left wakes. */
#define _GNU_SOURCE
#include <errno.h>
#include <pthread.h>
#include <signal.h>
#include <threads.h>
#include <time.h>
#include "check.h"
#include "cycle.h"
#include "watch.h"

enum { TIMES = 1000 };
static const struct timespec long_time = { 1000, 500 };
static _Atomic int is_over;
static pthread_t sleeper;

static void on_signal(int number) { (void)number; }
static void *interrupt(void *data)
{
    while (!is_over) {
        pthread_kill(sleeper, SIGUSR1);
        for (volatile int k = 0; k < 2000; k++) continue;
    }
    return data;
}

static double seconds(struct timespec time) { return (double)time.tv_sec + (double)time.tv_nsec / 1e9; }
static double now(void)
{
    struct timespec time;
    clock_gettime(CLOCK_MONOTONIC, &time);
    return seconds(time);
}

/* Whether it was interrupted. */
typedef int sleeps(const struct timespec *wanted, struct timespec *left);
static int by_nanosleep(const struct timespec *wanted, struct timespec *left) { return nanosleep(wanted, left) == -1 && errno == EINTR; }
static int by_thrd_sleep(const struct timespec *wanted, struct timespec *left) { return thrd_sleep(wanted, left) == -1; }
static int by_the_day(const struct timespec *wanted, struct timespec *left) { return clock_nanosleep(CLOCK_REALTIME, 0, wanted, left) == EINTR; }
static int by_the_clock(const struct timespec *wanted, struct timespec *left) { return clock_nanosleep(CLOCK_MONOTONIC, 0, wanted, left) == EINTR; }
static int by_its_start(const struct timespec *wanted, struct timespec *left) { return clock_nanosleep(CLOCK_BOOTTIME, 0, wanted, left) == EINTR; }
static sleeps *const ways[] = { by_nanosleep, by_thrd_sleep, by_the_day, by_the_clock, by_its_start };
enum { WAYS = sizeof ways / sizeof *ways };

/* It sleeps on for what is left, which is told into a place of its own, or where it was told how long. */
static int sleeps_on(sleeps *way, struct timespec *wanted, struct timespec *left)
{
    const double little = 1e-6;
    *wanted = long_time;
    for (int k = 0; k < TIMES; k++) {
        double before = now(), most = seconds(*wanted);
        if (!way(wanted, left)) return 1;
        double passed = now() - before, told = seconds(*left);
        if (told > most || told < most - passed - little || left->tv_nsec < 0 || left->tv_nsec >= 1000000000) return 2;
        *wanted = *left;
    }
    return 0;
}
static int sleep_on_everywhere(void)
{
    struct timespec wanted, left, *at = (struct timespec *)ordinary[2];
    for (int k = 0; k < WAYS; k++)
        if (sleeps_on(ways[k], &wanted, &left) || sleeps_on(ways[k], &wanted, &wanted) || sleeps_on(ways[k], &wanted, at)) return k + 1;
    return 0;
}

/* By what the kernel says it would sleep for ever, once they come. */
static int wakes(void)
{
    struct timespec left;
    while (!by_nanosleep(&long_time, &left)) continue;
    double before = now();
    left = (struct timespec){ 0, 2000000 };
    while (nanosleep(&left, &left) != 0) continue;
    return now() - before < 0.002;
}

/* What is over, and what can't be, is told as without signals. */
static int is_as_it_was(void)
{
    struct timespec none = { 0, 0 }, wrong = { 0, -1 }, past = { 1, 0 }, left = { 7, 7 };
    if (nanosleep(&none, &left) != 0 && errno != EINTR) return 1;
    if (nanosleep(&wrong, &left) != -1 || errno != EINVAL || nanosleep(NULL, &left) != -1 || errno != EFAULT) return 2;
    if (clock_nanosleep(CLOCK_MONOTONIC, 0, &wrong, NULL) != EINVAL) return 3;
    left = (struct timespec){ 7, 7 };
    if (clock_nanosleep(CLOCK_REALTIME, TIMER_ABSTIME, &past, &left) != 0 || left.tv_sec != 7 || left.tv_nsec != 7) return 4;
    struct timespec later;
    clock_gettime(CLOCK_REALTIME, &later);
    later.tv_sec += 1000;
    return clock_nanosleep(CLOCK_REALTIME, TIMER_ABSTIME, &later, &left) == EINTR && left.tv_sec == 7 && left.tv_nsec == 7 ? 0 : 5;
}

static int beside_interrupts(int (*body)(void))
{
    pthread_t thread;
    struct sigaction action = { .sa_handler = on_signal, .sa_flags = SA_RESTART };
    is_over = 0;
    sleeper = pthread_self();
    if (sigaction(SIGUSR1, &action, NULL) != 0 || pthread_create(&thread, NULL, interrupt, NULL) != 0) return 9;
    int status = body();
    is_over = 1;
    return pthread_join(thread, NULL) == 0 ? status : 9;
}
static int all_sleep_on(void) { return beside_interrupts(sleep_on_everywhere); }
static int one_wakes(void) { return beside_interrupts(wakes); }
static int all_is_as_it_was(void) { return beside_interrupts(is_as_it_was); }

int main(void)
{
    begin();
    CHECK(ends_well(all_sleep_on, 60));
    CHECK(ends_well(one_wakes, 20));
    CHECK(ends_well(all_is_as_it_was, 20));
    end();
    return check_ends();
}
