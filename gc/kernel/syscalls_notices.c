// Calls of the C library behind which a thread of its own calls a function of the program (SIGEV_THREAD), of timers and of queues of messages. (Those
// of `aio_read` are in syscalls_aio.c.) Nobody sees it made: so from here on there may be threads that make requests, or write, and weren't told of.
// And a timer's blocks every signal, so also faults: a write to a closed page would end the program. So does the handler of `profil`, which counts in
// memory of the program. Only in libmpgc.so.
#include "next.h"
#include <errno.h>
#include <mqueue.h>
#include <pthread.h>
#include <stdlib.h>
#include <sys/profil.h>
#include <time.h>
#include <unistd.h>

SHOWN int mq_notify(mqd_t queue, const struct sigevent *event)
{
    NEXT(int, mq_notify, (mqd_t, const struct sigevent *));
    mpgc_may_call(event);
    return next(queue, event);
}

// What a timer's threads call. A thread may be on its way when the timer is deleted: so what was its isn't another's before so many more
// were deleted.
enum { KEPT = 1000 };
struct notice {
    struct notice *next;
    timer_t timer;
    void (*function)(union sigval value);
    union sigval value;
};
static pthread_mutex_t lock = PTHREAD_MUTEX_INITIALIZER;
static struct notice *all, *gone, **last_gone = &gone;
static size_t gone_count;
static atomic_bool is_used;  // else no handler of signals that deletes a timer waits for the lock

// In a child, which has none of its parent's timers, and where the thread that had the lock isn't.
static void begin_anew(void)
{
    lock = (pthread_mutex_t)PTHREAD_MUTEX_INITIALIZER;
    all = gone = NULL;
    last_gone = &gone;
    gone_count = 0;
}
__attribute__((constructor)) static void take_forks(void) { pthread_atfork(NULL, NULL, begin_anew); }

static void call(union sigval which)
{
    const struct notice *one = which.sival_ptr;
    void (*function)(union sigval) = one->function;
    union sigval value = one->value;
    sigset_t faults;
    sigemptyset(&faults);
    sigaddset(&faults, SIGSEGV);
    sigaddset(&faults, mpgc_stopper);
    pthread_sigmask(SIG_UNBLOCK, &faults, NULL);
    function(value);
}

static struct notice *make(const struct sigevent *event)
{
    struct notice *one = NULL;
    pthread_mutex_lock(&lock);
    if (gone_count > KEPT) {
        one = gone;
        gone = one->next;
        gone_count--;
    }
    pthread_mutex_unlock(&lock);
    if (!one) one = malloc(sizeof *one);
    if (one) *one = (struct notice){ NULL, NULL, event->sigev_notify_function, event->sigev_value };
    return one;
}

static void link_notice(struct notice *one, timer_t timer)
{
    pthread_mutex_lock(&lock);
    atomic_store(&is_used, true);
    one->timer = timer;
    one->next = all;
    all = one;
    pthread_mutex_unlock(&lock);
}

static void unlink_notice(timer_t timer)
{
    pthread_mutex_lock(&lock);
    struct notice **at = &all, *one;
    while ((one = *at) && one->timer != timer) at = &one->next;
    if (one) {
        *at = one->next;
        one->next = NULL;
        *last_gone = one;
        last_gone = &one->next;
        gone_count++;
    }
    pthread_mutex_unlock(&lock);
}

SHOWN int timer_create(clockid_t clock, struct sigevent *restrict event, timer_t *restrict timer)
{
    NEXT(int, timer_create, (clockid_t, struct sigevent *, timer_t *));
    mpgc_may_call(event);
    if (!event || event->sigev_notify != SIGEV_THREAD) return next(clock, event, timer);
    struct sigevent ours = *event;
    struct notice *one = make(event);
    ours.sigev_notify_function = call;
    ours.sigev_value.sival_ptr = one;
    errno = one ? errno : EAGAIN;
    int answer = one ? next(clock, &ours, timer) : -1;
    if (answer == 0)
        link_notice(one, *timer);
    else
        free(one);
    return answer;
}

SHOWN int timer_delete(timer_t timer)
{
    NEXT(int, timer_delete, (timer_t));
    if (atomic_load(&is_used)) unlink_notice(timer);
    return next(timer);
}

// The handler is set again, by the layer's sigaction, and so without faults being blocked.
static int with_faults(int answer)
{
    struct sigaction counts;
    if (answer == 0 && sigaction(SIGPROF, NULL, &counts) == 0) sigaction(SIGPROF, &counts, NULL);
    return answer;
}
SHOWN int profil(unsigned short *into, size_t bytes, size_t from, unsigned scale)
{
    NEXT(int, profil, (unsigned short *, size_t, size_t, unsigned));
    return with_faults(next(into, bytes, from, scale));
}
SHOWN int sprofil(struct prof *all, int count, struct timeval *tick, unsigned flags)
{
    NEXT(int, sprofil, (struct prof *, int, struct timeval *, unsigned));
    return with_faults(next(all, count, tick, flags));
}
