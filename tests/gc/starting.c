/* A child by vfork writes into the heap while another thread stops the world: the child waits for the page, its parent's thread for the child,
 * and the stop for that thread. And one that was there before any page was closed, and one of a thread that isn't known yet. */
#define _GNU_SOURCE
#define GC_THREADS
#include <pthread.h>
#include <sched.h>
#include <signal.h>
#include <stdint.h>
#include <time.h>
#include "gc.h"
#include "beside.h"
#include "check.h"
#include "states.h"

enum { PLACES = 40, BYTES = 2000, PATIENCE = 1200 };
static int *places[PLACES];
static int failures;

__attribute__((noinline)) static void start_one(int *place, double seconds)
{
    int status;
    pid_t child = vfork();
    if (child == 0) {
        rest(seconds);
        *place = 1;
        _exit(0);
    }
    failures += waitpid(child, &status, 0) != child || status != 0 || *place != 1;
}

static void *start_some(void *data)
{
    for (int k = 0; k < PLACES; k++) start_one(places[k], 0.02);
    is_over = 1;
    return data;
}

static void make_places(void)
{
    for (int k = 0; k < PLACES; k++) places[k] = GC_malloc(BYTES);
}

static int starts_beside_collections(void)
{
    pthread_t starter;
    make_places();
    if (pthread_create(&starter, NULL, start_some, NULL) != 0) return 1;
    while (!is_over) GC_malloc(64);
    if (pthread_join(starter, NULL) != 0) return 2;
    return failures != 0;
}

static void *start_early(void *data)
{
    start_one(data, 1);
    return data;
}
static int before_the_first_cycle(void)
{
    pthread_t starter;
    GC_enable_incremental();
    make_places();
    GC_gcollect();
    if (pthread_create(&starter, NULL, start_early, places[PLACES / 2]) != 0) return 1;
    rest(0.2);
    GC_start_incremental_collection();
    while (GC_collect_a_little()) continue;
    if (pthread_join(starter, NULL) != 0) return 2;
    return failures != 0;
}

/* A timer's thread, which the library doesn't know before its first request: that comes behind such a child, which was the first to write to a closed
 * page. What the thread has is kept none the less. */
enum { LENGTH = 1000 };
struct node { struct node *next; uintptr_t value; };
static _Atomic int stage;
static void start_unknown(union sigval place)
{
    struct node *list = NULL;
    uintptr_t left = LENGTH;
    start_one(place.sival_ptr, 0);
    for (uintptr_t k = 0; k < LENGTH; k++) {
        struct node *one = GC_malloc(sizeof *one);
        *one = (struct node){ list, k };
        list = one;
    }
    for (stage = 1; stage == 1;) sched_yield();
    while (list && left > 0 && list->value == left - 1) {
        list = list->next;
        left--;
    }
    failures += left != 0 || list;
    stage = 3;
}
static int of_an_unknown_thread(void)
{
    enum { TRIES = 100, OTHERS = 20000 };
    timer_t timer;
    GC_enable_incremental();
    GC_allow_register_threads();
    make_places();
    GC_gcollect();
    for (int k = 0; k < TRIES && !is_closed(places[PLACES / 2]); k++) GC_start_incremental_collection();
    struct sigevent notice = { .sigev_notify = SIGEV_THREAD, .sigev_notify_function = start_unknown, .sigev_value.sival_ptr = places[PLACES / 2] };
    if (timer_create(CLOCK_MONOTONIC, &notice, &timer) != 0) return 1;
    if (timer_settime(timer, 0, &(struct itimerspec){ .it_value = { 0, 1000000 } }, NULL) != 0) return 2;
    while (stage < 1) sched_yield();
    GC_gcollect();
    for (int k = 0; k < OTHERS; k++) memset(GC_malloc(sizeof(struct node)), 255, sizeof(struct node));
    for (stage = 2; stage < 3;) sched_yield();
    return failures != 0;
}

static int in_full(void) { return starts_beside_collections(); }
static int in_small_steps(void)
{
    GC_enable_incremental();
    return starts_beside_collections();
}
static int beside_the_collectors_thread(void)
{
    GC_enable_collector_thread();
    return starts_beside_collections();
}

/* Where it hangs its threads look at each other now and then, so that it is no idle process: it has two minutes. Its children go with it. */
static int ends_in_time(int (*body)(void))
{
    int status = -1, looks = 0;
    pid_t child = fork();
    if (child == 0) {
        setpgid(0, 0);
        _exit(body());
    }
    while (waitpid(child, &status, WNOHANG) == 0 && looks++ < PATIENCE) rest(0.1);
    if (status == -1 && kill(-child, SIGKILL) == 0) waitpid(child, NULL, 0);
    return WIFEXITED(status) && WEXITSTATUS(status) == 0;
}

int main(void)
{
    GC_INIT();
    CHECK(ends_in_time(in_full));
    CHECK(ends_in_time(in_small_steps));
    CHECK(ends_in_time(beside_the_collectors_thread));
    CHECK(ends_in_time(before_the_first_cycle));
    CHECK(ends_in_time(of_an_unknown_thread));
    return check_ends();
}
