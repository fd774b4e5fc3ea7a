// The collector's own thread, where the program asks for it: it does what is due step by step, while the program's threads run.
//
// It says when, and the audited files what. The lock is given back behind each step. The program knows nothing of it, but the layer knows it
// as any other thread: its stack is read too, since functions of the program run on it (finalizers don't). It counts as blocked, since
// without the lock it touches nothing: so no stop waits for it.
//
// It is made when something is due first, and made again in the child of a fork, which goes on with the cycle that its parent had begun. It
// ends when no other thread is left, so that the process does.
#include "paced.h"
#include <linux/futex.h>
#include <pthread.h>
#include <stdatomic.h>
#include <sys/syscall.h>
#include <time.h>
#include <unistd.h>

int GC_pthread_create(pthread_t *thread, const pthread_attr_t *attributes, void *(*start)(void *), void *data);

static bool is_there;
static _Atomic uint32_t wakes;  // so often it was told to look
static atomic_bool sleeps;

// By the kernel's own call: waiting by the C library's a thread may be cancelled.
static void sleep_until_woken(uint32_t seen)
{
    sleeps = true;
    mpgc_call_kernel(SYS_futex, &wakes, FUTEX_WAIT_PRIVATE, seen, NULL, NULL, 0);
    sleeps = false;
}

// Steps, under the lock, which others may wait for meanwhile: so they are short, and longer only where the program runs ahead.
static void make_steps(void)
{
    enum { WORDS = 1024, SHORT = 50 };  // microseconds
    double end = mpgc_now() + SHORT * mpgc_lag();
    do {
        mpgc_step(WORDS);
    } while (mpgc_is_in_cycle() && !mpgc_will_read_roots() && mpgc_now() < end);
}

// What is due is done, or some of it, under the lock. Answers whether there may be more to do.
static bool look(void)
{
    is_there = mpgc_is_beside() && !mpgc_is_last_thread();
    switch (is_there ? mpgc_due_to_collector() : NOTHING) {
    case TIDYING: mpgc_tidied(mpgc_tidy()); return true;
    case STEP: make_steps(); return true;
    default: return false;
    }
}

// Behind a call under the lock a program may have a moment's work to do (behind.c), for which it may need the lock: who writes to a closed page
// waits for it. So that thread is let work for a moment, if it does, before roots are read; and described objects, of which a thread of
// Guile is one, aren't read before a cycle's end meanwhile, by whomever.
enum { MOMENT = 20, PATIENCE = 200000 };  // microseconds, of that thread's work and of time
static clockid_t caller;
static double called_at, had_worked;

static double worked(void)
{
    struct timespec time;
    if (clock_gettime(caller, &time) != 0) return had_worked + MOMENT;  // it has ended
    return (double)time.tv_sec * 1e6 + (double)time.tv_nsec / 1e3;
}

void mpgc_was_called_under_lock(void)
{
    bool is_watched = is_there || (mpgc_is_threaded() && mpgc_is_marking());
    if (!is_watched || pthread_getcpuclockid(pthread_self(), &caller) != 0) return;
    called_at = mpgc_now();
    had_worked = worked();
}

bool mpgc_is_moment_over(void)
{
    bool is_over = called_at == 0 || mpgc_now() - called_at >= PATIENCE || worked() - had_worked >= MOMENT;
    if (is_over) called_at = 0;
    return is_over;
}

static void let_a_moment_pass(void)
{
    static const struct timespec moment = { 0, 5 * MOMENT * 1000 };
    while (!mpgc_is_moment_over()) {
        GC_alloc_unlock();
        mpgc_call_kernel(SYS_nanosleep, &moment, NULL);
        GC_alloc_lock();
    }
}

// Answers whether it stays: who ends may find another one made, as soon as the lock is free.
static bool look_alone(bool *is_more)
{
    GC_alloc_lock();
    if (mpgc_will_read_roots()) let_a_moment_pass();
    *is_more = look();
    bool stays = is_there;
    GC_alloc_unlock();
    return stays;
}

static void *go_on(void *data)
{
    bool is_more;
    for (uint32_t seen = wakes; look_alone(&is_more); seen = wakes) {
        if (is_more)
            mpgc_give_way();
        else
            sleep_until_woken(seen);
    }
    return data;
}

static void *collect_on(void *data) { return GC_do_blocking(go_on, data); }

// Signals of the program come to its own threads, but for those of faults.
static void block_signals(sigset_t *old)
{
    static const int of_faults[] = { SIGSEGV, SIGBUS, SIGFPE, SIGILL, SIGTRAP, SIGABRT };
    sigset_t all;
    sigfillset(&all);
    for (size_t k = 0; k < sizeof of_faults / sizeof *of_faults; k++) sigdelset(&all, of_faults[k]);
    pthread_sigmask(SIG_SETMASK, &all, old);
}

static bool start(void)
{
    sigset_t old;
    pthread_t thread;
    pthread_attr_t attributes;
    GC_allow_register_threads();
    block_signals(&old);
    pthread_attr_init(&attributes);
    pthread_attr_setdetachstate(&attributes, PTHREAD_CREATE_DETACHED);
    is_there = true;
    is_there = GC_pthread_create(&thread, &attributes, collect_on, NULL) == 0;
    pthread_attr_destroy(&attributes);
    pthread_sigmask(SIG_SETMASK, &old, NULL);
    return is_there;
}

// It looks what is due. Answers whether there is one, or one was made, if it may be.
bool mpgc_wake_collector(bool may_start)
{
    if (!is_there) return may_start && start();
    wakes++;
    if (sleeps) mpgc_call_kernel(SYS_futex, &wakes, FUTEX_WAKE_PRIVATE, 1, NULL, NULL, 0);
    return true;
}

// In a child, where it isn't.
void mpgc_lose_collector(void)
{
    is_there = false;
    sleeps = false;
}
