/* Locks in ordinary objects, in whose words the kernel writes, or for which it asks that it may, beside collections that close their pages
 * while threads wait: mutexes that are robust, inherit priorities or are for several processes, and what else is for several. Each in a
 * child of its own. */
#define _GNU_SOURCE
#define GC_THREADS
#include <errno.h>
#include <pthread.h>
#include <semaphore.h>
#include <stdint.h>
#include <time.h>
#include "gc.h"
#include "beside.h"
#include "check.h"
#include "states.h"
#include "watch.h"

enum { THREADS = 3, TURNS = 20, LONGEST = 60 };
static struct all {
    pthread_mutex_t mutex, other;
    pthread_cond_t cond;
    sem_t semaphores[THREADS];
    pthread_barrier_t barrier;
    pthread_rwlock_t lock;
    long count;
    char rest[2000];
} *all;
static _Atomic int left, failures;
static int is_robust, protocol, shared;

static void make_mutex(pthread_mutex_t *mutex)
{
    pthread_mutexattr_t how;
    pthread_mutexattr_init(&how);
    pthread_mutexattr_setrobust(&how, is_robust ? PTHREAD_MUTEX_ROBUST : PTHREAD_MUTEX_STALLED);
    pthread_mutexattr_setprotocol(&how, protocol);
    pthread_mutexattr_setpshared(&how, shared);
    failures += pthread_mutex_init(mutex, &how) != 0;
}

static void make_all(void)
{
    pthread_condattr_t of_cond;
    pthread_barrierattr_t of_barrier;
    pthread_rwlockattr_t of_lock;
    all = GC_malloc(sizeof *all);
    make_mutex(&all->mutex);
    make_mutex(&all->other);
    pthread_condattr_init(&of_cond);
    pthread_barrierattr_init(&of_barrier);
    pthread_rwlockattr_init(&of_lock);
    pthread_condattr_setpshared(&of_cond, shared);
    pthread_barrierattr_setpshared(&of_barrier, shared);
    pthread_rwlockattr_setpshared(&of_lock, shared);
    failures += pthread_cond_init(&all->cond, &of_cond) != 0 || pthread_barrier_init(&all->barrier, &of_barrier, THREADS) != 0;
    failures += pthread_rwlock_init(&all->lock, &of_lock) != 0;
    for (int k = 0; k < THREADS; k++) failures += sem_init(&all->semaphores[k], shared == PTHREAD_PROCESS_SHARED, k == 0) != 0;
}

/* Threads do this, each with a number, while this one makes requests. */
static int beside_requests(void *(*work)(void *number))
{
    pthread_t threads[THREADS];
    left = THREADS;
    for (intptr_t k = 0; k < THREADS; k++) failures += pthread_create(&threads[k], NULL, work, (void *)k) != 0;
    while (left > 0)
        for (int k = 0; k < 100; k++) GC_malloc(64);
    for (int k = 0; k < THREADS; k++) failures += pthread_join(threads[k], NULL) != 0;
    return failures;
}

static void add_slowly(void)
{
    long seen = all->count;
    rest(0.001);
    all->count = seen + 1;
}

/* Some time from now, that nobody waits for so long: what hangs is ended. */
static const struct timespec *much_later(clockid_t clock)
{
    static _Thread_local struct timespec until;
    clock_gettime(clock, &until);
    until.tv_sec += 3600;
    return &until;
}

static int take_by_turns(int turn)
{
    switch (turn % 4) {
    case 0: return pthread_mutex_timedlock(&all->mutex, much_later(CLOCK_REALTIME));
    case 1: return pthread_mutex_trylock(&all->mutex) == 0 ? 0 : pthread_mutex_lock(&all->mutex);
    case 2: return pthread_mutex_clocklock(&all->mutex, CLOCK_REALTIME, much_later(CLOCK_REALTIME));
    default: return pthread_mutex_lock(&all->mutex);
    }
}
static void *take_mutex(void *number)
{
    for (int k = 0; k < TURNS; k++) {
        failures += take_by_turns(k) != 0;
        add_slowly();
        failures += pthread_mutex_unlock(&all->mutex) != 0;
    }
    left--;
    return number;
}
static int of_mutex(void)
{
    make_all();
    return beside_requests(take_mutex) != 0 || all->count != THREADS * TURNS;
}

/* Whose turn it is. */
static int wait_by_turns(int turn)
{
    switch (turn % 3) {
    case 0: return pthread_cond_timedwait(&all->cond, &all->mutex, much_later(CLOCK_REALTIME));
    case 1: return pthread_cond_clockwait(&all->cond, &all->mutex, CLOCK_MONOTONIC, much_later(CLOCK_MONOTONIC));
    default: return pthread_cond_wait(&all->cond, &all->mutex);
    }
}
static void *wait_for_turn(void *number)
{
    for (int k = 0; k < TURNS; k++) {
        failures += pthread_mutex_lock(&all->mutex) != 0;
        while (all->count % THREADS != (intptr_t)number) failures += wait_by_turns(k) != 0;
        add_slowly();
        failures += pthread_cond_broadcast(&all->cond) != 0 || pthread_mutex_unlock(&all->mutex) != 0;
    }
    left--;
    return number;
}
static int of_condition(void)
{
    make_all();
    return beside_requests(wait_for_turn) != 0 || all->count != THREADS * TURNS;
}

static int wait_for_semaphore(sem_t *semaphore, int turn)
{
    switch (turn % 3) {
    case 0: return sem_clockwait(semaphore, CLOCK_MONOTONIC, much_later(CLOCK_MONOTONIC));
    case 1: return sem_timedwait(semaphore, much_later(CLOCK_REALTIME));
    default: return sem_wait(semaphore);
    }
}
static void *hand_on(void *number)
{
    sem_t *own = &all->semaphores[(intptr_t)number], *next = &all->semaphores[((intptr_t)number + 1) % THREADS];
    for (int k = 0; k < TURNS; k++) {
        while (wait_for_semaphore(own, k) != 0) failures += errno != EINTR; /* a stop interrupts it */
        add_slowly();
        failures += sem_post(next) != 0;
    }
    left--;
    return number;
}
static int of_semaphores(void)
{
    make_all();
    return beside_requests(hand_on) != 0 || all->count != THREADS * TURNS;
}

static void *meet(void *number)
{
    for (int k = 0; k < TURNS; k++) {
        int answer = pthread_barrier_wait(&all->barrier);
        failures += answer != 0 && answer != PTHREAD_BARRIER_SERIAL_THREAD;
        if (answer == PTHREAD_BARRIER_SERIAL_THREAD) add_slowly();
    }
    left--;
    return number;
}
static int of_barrier(void)
{
    make_all();
    return beside_requests(meet) != 0 || all->count != TURNS;
}

static void *read_and_write(void *number)
{
    for (int k = 0; k < TURNS; k++) {
        failures += (k % 2 ? pthread_rwlock_wrlock(&all->lock) : pthread_rwlock_timedwrlock(&all->lock, much_later(CLOCK_REALTIME))) != 0;
        add_slowly();
        failures += pthread_rwlock_unlock(&all->lock) != 0;
        failures += (k % 2 ? pthread_rwlock_rdlock(&all->lock) : pthread_rwlock_timedrdlock(&all->lock, much_later(CLOCK_REALTIME))) != 0;
        rest(0.0002);
        failures += pthread_rwlock_unlock(&all->lock) != 0;
    }
    left--;
    return number;
}
static int of_readers_and_writers(void)
{
    make_all();
    return beside_requests(read_and_write) != 0 || all->count != THREADS * TURNS;
}

/* A thread ends that has robust mutexes: two of the heap and one that isn't, between them. Others wait for each then, or come later. */
static pthread_mutex_t elsewhere;
static void *die(void *data)
{
    pthread_mutex_t *const its[] = { &all->mutex, &elsewhere, &all->other };
    for (int k = 0; k < 3; k++) failures += pthread_mutex_lock(its[k]) != 0;
    left--;
    rest(0.003);
    return data;
}
static void inherit(pthread_mutex_t *mutex)
{
    failures += pthread_mutex_lock(mutex) != EOWNERDEAD || pthread_mutex_consistent(mutex) != 0 || pthread_mutex_unlock(mutex) != 0;
}
static void *inherit_other(void *data)
{
    inherit(&all->other);
    left--;
    return data;
}
static int of_the_dead(void)
{
    make_all();
    make_mutex(&elsewhere);
    for (int k = 0; k < TURNS; k++) {
        pthread_t dying, waiting;
        left = 1;
        failures += pthread_create(&dying, NULL, die, NULL) != 0;
        while (left > 0) GC_malloc(64);
        left = 1;
        failures += pthread_create(&waiting, NULL, inherit_other, NULL) != 0;
        while (left > 0) GC_malloc(64);
        failures += pthread_join(waiting, NULL) != 0 || pthread_join(dying, NULL) != 0;
        inherit(&elsewhere);
        inherit(&all->mutex);
    }
    return failures;
}

/* .. and where their page is closed when it does. Without cycles in small steps it never is. */
static _Atomic int may_die;
static void *die_later(void *data)
{
    die(data);
    while (!may_die) rest(0.0001);
    return data;
}
static int of_the_dead_on_a_closed_page(void)
{
    enum { TRIES = 100 };
    pthread_t dying;
    make_all();
    make_mutex(&elsewhere);
    left = 1;
    failures += pthread_create(&dying, NULL, die_later, NULL) != 0;
    while (left > 0) GC_malloc(64);
    for (int k = 0; k < TRIES && !is_closed(&all->mutex); k++) GC_start_incremental_collection();
    may_die = 1;
    failures += pthread_join(dying, NULL) != 0;
    inherit(&all->other);
    inherit(&elsewhere);
    inherit(&all->mutex);
    return failures;
}

/* Mutexes of this kind, and what else there is. */
static void of_kind(int robust, int how, int whose)
{
    is_robust = robust;
    protocol = how;
    shared = whose;
    CHECK(ends_well(of_mutex, LONGEST));
    CHECK(ends_well(of_condition, LONGEST));
    if (!robust) return;
    CHECK(ends_well(of_the_dead, LONGEST));
    CHECK(ends_well(of_the_dead_on_a_closed_page, LONGEST));
}

int main(void)
{
    GC_INIT();
    of_kind(0, PTHREAD_PRIO_NONE, PTHREAD_PROCESS_PRIVATE);
    of_kind(0, PTHREAD_PRIO_INHERIT, PTHREAD_PROCESS_PRIVATE);
    of_kind(1, PTHREAD_PRIO_NONE, PTHREAD_PROCESS_PRIVATE);
    of_kind(1, PTHREAD_PRIO_INHERIT, PTHREAD_PROCESS_PRIVATE);
    of_kind(1, PTHREAD_PRIO_INHERIT, PTHREAD_PROCESS_SHARED);
    of_kind(0, PTHREAD_PRIO_NONE, PTHREAD_PROCESS_SHARED);
    CHECK(ends_well(of_semaphores, LONGEST));
    CHECK(ends_well(of_barrier, LONGEST));
    CHECK(ends_well(of_readers_and_writers, LONGEST));
    return check_ends();
}
