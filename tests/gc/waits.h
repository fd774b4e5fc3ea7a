/* How a test's threads wait for each other. ThreadSanitizer holds a signal back while its thread waits in the C library for a lock or at a
 * barrier: so a thread that is to be stopped there would wait for one that is stopped already. Under it they look again and again. */
#ifndef WAITS_H
#define WAITS_H
#include <pthread.h>
#include <sched.h>

#ifdef __SANITIZE_THREAD__
static inline void take_lock(pthread_mutex_t *lock)
{
    while (pthread_mutex_trylock(lock) != 0) sched_yield();
}

struct meeting { _Atomic unsigned come, of; };
static inline void will_meet(struct meeting *meeting, unsigned of)
{
    meeting->come = 0;
    meeting->of = of;
}
static inline void meet(struct meeting *meeting)
{
    unsigned of = meeting->of, all = meeting->come++ / of * of + of;
    while (meeting->come < all) sched_yield();
}
#else
static inline void take_lock(pthread_mutex_t *lock) { pthread_mutex_lock(lock); }

struct meeting { pthread_barrier_t at; };
static inline void will_meet(struct meeting *meeting, unsigned of) { pthread_barrier_init(&meeting->at, NULL, of); }
static inline void meet(struct meeting *meeting) { pthread_barrier_wait(&meeting->at); }
#endif
#endif
