// The C library's locks and their kin, in whose words the kernel writes, or for which it asks that it may: mutexes that are robust, inherit
// priorities or are for several processes, and conditions, semaphores, barriers and locks of readers and writers that are. Where one lies
// in the heap, its page is open while the call runs: a stop interrupts a wait, and the kernel begins it anew. Of others the kernel only
// reads, and nothing is done. Only in libmpgc.so.
#include "next.h"
#include <pthread.h>
#include <semaphore.h>

// What the C library has in them: in a mutex's kind, a condition's count of waiters, a semaphore's third number, and a barrier's fourth.
enum { ROBUST = 16, INHERITS = 32, SHARED = 128, SHARED_CONDITION = 1, OF_SEMAPHORE = 2, OF_BARRIER = 3 };

static bool is_inside(const void *at) { return (uintptr_t)at - FIRST < MAX_PAGES * PAGE; }
static bool has(const void *at, size_t number) { return is_inside(at) && ((const int *)at)[number] != 0; }
static bool is_written_mutex(const pthread_mutex_t *mutex)
{
    return is_inside(mutex) && (mutex->__data.__kind & (ROBUST | INHERITS | SHARED));
}
static bool is_written_cond(const pthread_cond_t *cond) { return is_inside(cond) && (cond->__data.__wrefs & SHARED_CONDITION); }
static bool is_written_rwlock(const pthread_rwlock_t *lock) { return is_inside(lock) && lock->__data.__shared; }
static bool is_written_barrier(const pthread_barrier_t *barrier) { return has(barrier, OF_BARRIER); }
static bool is_written_sem(const sem_t *semaphore) { return has(semaphore, OF_SEMAPHORE); }

// The call of this name, of one such thing.
#define WRITES(kind, name, words, values, one) \
    SHOWN int name words \
    { \
        NEXT(int, name, words); \
        if (!is_written_##kind(one)) return next values; \
        mpgc_will_write(one, sizeof *one); \
        SAYS(next values); \
    }
WRITES(mutex, pthread_mutex_lock, (pthread_mutex_t *mutex), (mutex), mutex)
WRITES(mutex, pthread_mutex_trylock, (pthread_mutex_t *mutex), (mutex), mutex)
WRITES(mutex, pthread_mutex_timedlock, (pthread_mutex_t *restrict mutex, const struct timespec *restrict until), (mutex, until), mutex)
WRITES(mutex, pthread_mutex_clocklock, (pthread_mutex_t *restrict mutex, clockid_t clock, const struct timespec *restrict until),
       (mutex, clock, until), mutex)
WRITES(mutex, pthread_mutex_unlock, (pthread_mutex_t *mutex), (mutex), mutex)
WRITES(cond, pthread_cond_signal, (pthread_cond_t *cond), (cond), cond)
WRITES(cond, pthread_cond_broadcast, (pthread_cond_t *cond), (cond), cond)
WRITES(rwlock, pthread_rwlock_rdlock, (pthread_rwlock_t *lock), (lock), lock)
WRITES(rwlock, pthread_rwlock_timedrdlock, (pthread_rwlock_t *restrict lock, const struct timespec *restrict until), (lock, until), lock)
WRITES(rwlock, pthread_rwlock_clockrdlock, (pthread_rwlock_t *restrict lock, clockid_t clock, const struct timespec *restrict until),
       (lock, clock, until), lock)
WRITES(rwlock, pthread_rwlock_wrlock, (pthread_rwlock_t *lock), (lock), lock)
WRITES(rwlock, pthread_rwlock_timedwrlock, (pthread_rwlock_t *restrict lock, const struct timespec *restrict until), (lock, until), lock)
WRITES(rwlock, pthread_rwlock_clockwrlock, (pthread_rwlock_t *restrict lock, clockid_t clock, const struct timespec *restrict until),
       (lock, clock, until), lock)
WRITES(rwlock, pthread_rwlock_unlock, (pthread_rwlock_t *lock), (lock), lock)
WRITES(barrier, pthread_barrier_wait, (pthread_barrier_t *barrier), (barrier), barrier)
WRITES(sem, sem_wait, (sem_t *semaphore), (semaphore), semaphore)
WRITES(sem, sem_timedwait, (sem_t *restrict semaphore, const struct timespec *restrict until), (semaphore, until), semaphore)
WRITES(sem, sem_clockwait, (sem_t *restrict semaphore, clockid_t clock, const struct timespec *restrict until), (semaphore, clock, until),
       semaphore)
WRITES(sem, sem_post, (sem_t *semaphore), (semaphore), semaphore)

// Who waits for a condition takes the mutex again.
#define WAITS_FOR(name, words, values) \
    SHOWN int name words \
    { \
        NEXT(int, name, words); \
        bool is_cond = is_written_cond(cond), is_mutex = is_written_mutex(mutex); \
        if (!is_cond && !is_mutex) return next values; \
        if (is_cond) mpgc_will_write(cond, sizeof *cond); \
        if (is_mutex) mpgc_will_write(mutex, sizeof *mutex); \
        SAYS(next values); \
    }
WAITS_FOR(pthread_cond_wait, (pthread_cond_t *restrict cond, pthread_mutex_t *restrict mutex), (cond, mutex))
WAITS_FOR(pthread_cond_timedwait, (pthread_cond_t *restrict cond, pthread_mutex_t *restrict mutex, const struct timespec *restrict until),
          (cond, mutex, until))
WAITS_FOR(pthread_cond_clockwait,
          (pthread_cond_t *restrict cond, pthread_mutex_t *restrict mutex, clockid_t clock, const struct timespec *restrict until),
          (cond, mutex, clock, until))
