/* Signals that the program blocks, handles, waits for and sends, while a cycle marks: a write to a closed page is done in each case. */
#define _GNU_SOURCE
#define GC_THREADS
#include <dlfcn.h>
#include <errno.h>
#include <poll.h>
#include <pthread.h>
#include <signal.h>
#include <sys/epoll.h>
#include <sys/select.h>
#include <sys/syscall.h>
#include <time.h>
#include "check.h"
#include "cycle.h"

static sigset_t all(void)
{
    sigset_t signals;
    sigfillset(&signals);
    return signals;
}

static volatile int rings;
static void write_some(int from)
{
    for (int k = from; k < from + 40; k += 4) *(void **)(void *)(ordinary[k] + 8) = ordinary[(k + 7) % COUNT];
}
static void rings_bell(int number)
{
    (void)number;
    write_some(40 * ++rings);
}

/* The handler runs with every signal blocked. */
static void handle_with_all_blocked(void)
{
    struct sigaction action = { .sa_handler = rings_bell }, seen;
    sigfillset(&action.sa_mask);
    CHECK(sigaction(SIGUSR1, &action, NULL) == 0 && sigaction(SIGUSR1, NULL, &seen) == 0);
    CHECK(seen.sa_handler == rings_bell && sigismember(&seen.sa_mask, SIGUSR2) && sigismember(&seen.sa_mask, SIGTERM));
}

static int writes_while_all_are_blocked(void)
{
    sigset_t signals = all(), old;
    begin();
    if (sigprocmask(SIG_SETMASK, &signals, &old) != 0) return 1;
    write_some(0);
    if (pthread_sigmask(SIG_BLOCK, &signals, NULL) != 0) return 2;
    write_some(40);
    if (pthread_sigmask(-5, &signals, NULL) != EINVAL) return 3;
    raise(SIGUSR1);
    sigset_t now;
    if (sigprocmask(SIG_SETMASK, NULL, &now) != 0 || !sigismember(&now, SIGUSR1) || rings != 0) return 4;
    if (sigprocmask(SIG_SETMASK, &old, NULL) != 0 || rings != 1) return 5;
    end();
    return 0;
}

static int writes_in_a_handler(void)
{
    begin();
    for (int k = 0; k < 5; k++) raise(SIGUSR1);
    end();
    return rings == 5 ? 0 : 1;
}

/* Each way of waiting with all signals blocked but one, whose handler writes. */
extern int __ppoll_chk(struct pollfd *files, nfds_t count, const struct timespec *timeout, const sigset_t *blocked, size_t room);
static int writes_under_a_wait(void)
{
    sigset_t one, others = all();
    struct timespec second = { 1, 0 };
    struct epoll_event event;
    sigemptyset(&one);
    sigaddset(&one, SIGUSR1);
    sigdelset(&others, SIGUSR1);
    begin();
    sigprocmask(SIG_BLOCK, &one, NULL);
    raise(SIGUSR1);
    if (sigsuspend(&others) != -1 || errno != EINTR || rings != 1) return 1;
#ifndef WITHOUT_SYSCALLS
    raise(SIGUSR1);
    if (ppoll(NULL, 0, &second, &others) != -1 || errno != EINTR || rings != 2) return 2;
    raise(SIGUSR1);
    if (pselect(0, NULL, NULL, NULL, &second, &others) != -1 || errno != EINTR || rings != 3) return 3;
    raise(SIGUSR1);
    if (__ppoll_chk(NULL, 0, &second, &others, 0) != -1 || errno != EINTR || rings != 4) return 4;
    raise(SIGUSR1);
    if (epoll_pwait2(epoll_create1(0), &event, 1, &second, &others) != -1 || errno != EINTR || rings != 5) return 5;
#endif
    (void)second;
    (void)event;
    end();
    return 0;
}

/* Another program started this one with every signal blocked, and told nobody. */
static int starts_blocked(void)
{
    unsigned long signals = ~0ul;
    if (syscall(SYS_rt_sigprocmask, SIG_BLOCK, &signals, NULL, sizeof signals) != 0) return 1;
    begin();
    write_some(0);
    end();
    return 0;
}

/* A SIGSEGV that someone sends is no fault: it does what the program set. */
static int is_ignored_when_sent(void)
{
    signal(SIGSEGV, SIG_IGN);
    begin();
    raise(SIGSEGV);
    write_some(0);
    end();
    return 0;
}
static int ends_when_sent(void)
{
    signal(SIGSEGV, SIG_DFL);
    begin();
    raise(SIGSEGV);
    return 0;
}
static int is_handled_when_sent(void)
{
    signal(SIGSEGV, rings_bell);
    begin();
    raise(SIGSEGV);
    write_some(0);
    end();
    return rings == 1 ? 0 : 1;
}

/* The old names of signal: their handlers too stand behind the barrier, and System V's for one signal. */
extern __sighandler_t bsd_signal(int number, __sighandler_t handler);
static int old_names_are_behind_the_barrier(void)
{
    begin();
    if (bsd_signal(SIGSEGV, SIG_IGN) == SIG_ERR || sysv_signal(SIGSEGV, rings_bell) != SIG_IGN) return 1;
    write_some(0);
    if (rings != 0) return 2;
    raise(SIGSEGV);
    if (rings != 1) return 3;
    if (__sysv_signal(SIGSEGV, SIG_IGN) != SIG_DFL) return 4;
    write_some(200);
    end();
    return 0;
}

/* System V's later names: by none of them is a fault held, or its handler another one; and they do what they do to other signals. */
#pragma GCC diagnostic push
#pragma GCC diagnostic ignored "-Wdeprecated-declarations"
static int later_names_are_behind_the_barrier(void)
{
    begin();
    if (sighold(SIGSEGV) != 0 || sigset(SIGSEGV, SIG_HOLD) != SIG_DFL || sigset(SIGSEGV, rings_bell) != SIG_DFL) return 1;
    write_some(0);
    if (rings != 0 || sigset(SIGSEGV, SIG_HOLD) != rings_bell || sigignore(SIGSEGV) != 0) return 2;
    write_some(40);
    if (sigset(SIGSEGV, SIG_DFL) != SIG_IGN || sigset(SIGUSR2, rings_bell) != SIG_DFL || sighold(SIGUSR2) != 0) return 3;
    raise(SIGUSR2);
    if (rings != 0 || sigrelse(SIGUSR2) != 0 || rings != 1 || sigset(SIGUSR2, SIG_HOLD) != rings_bell) return 4;
    raise(SIGUSR2);
    if (rings != 1 || sigset(SIGUSR2, SIG_IGN) != SIG_HOLD || rings != 1 || sigset(SIGUSR2, SIG_DFL) != SIG_IGN) return 5;
    if (sighold(0) != -1 || errno != EINVAL || sigset(SIGUSR2, SIG_ERR) != SIG_ERR || sigset(1000, SIG_IGN) != SIG_ERR) return 6;
    end();
    return 0;
}
#pragma GCC diagnostic pop

/* The oldest name of sigsuspend, which blocks what the first 32 bits say: a handler under it writes. */
extern int pause_under(int signals) __asm__("sigpause");
static int writes_under_the_oldest_wait(void)
{
    sigset_t one;
    sigemptyset(&one);
    sigaddset(&one, SIGUSR1);
    begin();
    sigprocmask(SIG_BLOCK, &one, NULL);
    raise(SIGUSR1);
    if (pause_under(~(1 << (SIGUSR1 - 1))) != -1 || errno != EINTR || rings != 1) return 1;
    end();
    return 0;
}

/* A timer's handler writes at any moment, also where the collector opens pages. It sets the timer anew, so that the program goes on between
 * two ticks however slow the machine is. */
static volatile unsigned ticks;
static timer_t timer;
static const struct itimerspec soon = { .it_value = { 0, 50000 } };
static void on_tick(int number)
{
    (void)number;
    for (unsigned k = 0; k < 40; k++) *(void **)(void *)(ordinary[(k * 10 + ticks) % COUNT] + 8) = ordinary[(k + ticks) % COUNT];
    ticks++;
    timer_settime(timer, 0, &soon, NULL);
}
static int ticks_are_harmless(void)
{
    struct sigevent event = { .sigev_notify = SIGEV_SIGNAL, .sigev_signo = SIGUSR2 };
    begin();
    end();
    if (timer_create(CLOCK_MONOTONIC, &event, &timer) != 0) return 1;
    signal(SIGUSR2, on_tick);
    if (timer_settime(timer, 0, &soon, NULL) != 0) return 1;
    for (int round = 0; round < 300 || ticks < 2000; round++) {
        for (int k = 0; k < 200; k++) *(void **)(void *)ordinary[k] = GC_malloc_atomic(100);
        GC_start_incremental_collection();
        while (GC_collect_a_little()) continue;
    }
    signal(SIGUSR2, SIG_IGN);
    timer_delete(timer);
    return 0;
}

/* A stack for signals in a frame that goes: what lies there later stays as it is, though faults are handled on such a stack. */
enum { FRAME = 16384 };
static void *asked;
__attribute__((noinline)) static int ask_for_a_frame(void)
{
    char frame[FRAME];
    stack_t stack = { .ss_sp = frame, .ss_size = sizeof frame }, seen;
    asked = frame;
    return sigaltstack(&stack, NULL) == 0 && sigaltstack(NULL, &seen) == 0 && seen.ss_sp == frame && seen.ss_size == sizeof frame;
}
__attribute__((noinline)) static int is_written_over(void)
{
    volatile unsigned char frame[FRAME];
    for (size_t k = 0; k < FRAME; k++) frame[k] = 7;
    write_some(0);
    int others = 0;
    for (size_t k = 0; k < FRAME; k++) others += frame[k] != 7;
    return others;
}
static int frames_that_went_are_no_stacks(void)
{
    stack_t none = { .ss_flags = SS_DISABLE }, seen;
    begin();
    if (!ask_for_a_frame()) return 1;
    if (is_written_over() != 0) return 2;
    end();
    if (sigaltstack(&none, &seen) != 0 || seen.ss_sp != asked) return 3;
    return sigaltstack(NULL, &seen) == 0 && (seen.ss_flags & SS_DISABLE) ? 0 : 4;
}

/* A handler makes a request in the middle of the first one, where the library asks where the stack ends. */
static volatile sig_atomic_t is_armed;
static void *volatile of_handler;
static void ask(int number)
{
    (void)number;
    of_handler = GC_malloc(16);
}
int pthread_getattr_np(pthread_t thread, pthread_attr_t *attributes)
{
    int (*next)(pthread_t, pthread_attr_t *);
    void *found = dlsym(RTLD_NEXT, "pthread_getattr_np");
    memcpy(&next, &found, sizeof next);
    if (is_armed) {
        is_armed = 0;
        raise(SIGUSR1);
    }
    return next(thread, attributes);
}
static int asks_in_the_first_request(void)
{
    signal(SIGUSR1, ask);
    is_armed = 1;
    void *volatile first = GC_malloc(16);
    return !first || is_armed || !of_handler || of_handler == first;
}

/* A thread that may be cancelled where it is has the lock in the handler of faults: the signal for that, 32, waits meanwhile. */
static int faults_hold_off_cancelling(void)
{
    struct { void *handler; unsigned long flags; void *restorer; uint64_t mask; } now = { 0 };
    begin();
    long answer = syscall(SYS_rt_sigaction, SIGSEGV, NULL, &now, sizeof now.mask);
    end();
    return answer != 0 || !(now.mask >> 31 & 1);
}

/* A program that names another signal for stops has SIGPWR to itself. */
static volatile sig_atomic_t came;
static _Atomic int is_enough;
static void count(int number) { came += number == SIGPWR; }
static void *ask_on(void *data)
{
    while (!is_enough) GC_malloc(64);
    return data;
}
static int another_one_stops(void)
{
    enum { TIMES = 20 };
    pthread_t thread;
    GC_set_suspend_signal(SIGRTMIN + 5);
    GC_INIT();
    GC_set_suspend_signal(SIGUSR2); /* too late */
    signal(SIGPWR, count);
    pthread_create(&thread, NULL, ask_on, NULL);
    for (int k = 0; k < TIMES; k++) {
        GC_gcollect();
        raise(SIGPWR);
    }
    is_enough = 1;
    pthread_join(thread, NULL);
    return came != TIMES || GC_get_suspend_signal() != SIGRTMIN + 5;
}

/* And else what it has set on SIGPWR before there were threads is what it is told, and isn't called any more. */
static int is_told_of_its_own(void)
{
    struct sigaction seen;
    pthread_t thread;
    signal(SIGPWR, count);
    GC_INIT();
    raise(SIGPWR);
    is_enough = 1;
    if (pthread_create(&thread, NULL, ask_on, NULL) != 0 || pthread_join(thread, NULL) != 0) return 1;
    raise(SIGPWR);
    if (came != 1 || sigaction(SIGPWR, NULL, &seen) != 0 || seen.sa_handler != count) return 2;
    return signal(SIGPWR, SIG_IGN) != count || signal(SIGPWR, SIG_DFL) != SIG_IGN;
}

/* What is kept of a handler has no more in its mask than signals: what the C library's stack had there would be a root. */
static int has_more(const struct sigaction *one)
{
    unsigned long more = 0;
    for (size_t k = 1; k < sizeof one->sa_mask / sizeof *one->sa_mask.__val; k++) more |= one->sa_mask.__val[k];
    return more != 0;
}
static int keeps_masks_alone(void)
{
    struct sigaction of_faults, of_stops;
    GC_INIT();
    GC_enable_incremental();
    GC_allow_register_threads();
    begin();
    end();
    if (sigaction(SIGSEGV, NULL, &of_faults) != 0 || sigaction(SIGPWR, NULL, &of_stops) != 0) return 1;
    if (has_more(&of_faults) || has_more(&of_stops)) return 2;
    return sigaction(SIGPWR, &(struct sigaction){ .sa_handler = count }, &of_stops) != 0 || of_stops.sa_handler != SIG_DFL;
}

int main(void)
{
    CHECK(status_of(asks_in_the_first_request) == 0);
    CHECK(status_of(is_told_of_its_own) == 0);
    CHECK(status_of(keeps_masks_alone) == 0);
    CHECK(status_of(another_one_stops) == 0);
    GC_INIT();
    GC_enable_incremental();
    CHECK(status_of(faults_hold_off_cancelling) == 0);
    handle_with_all_blocked();
    CHECK(status_of(writes_while_all_are_blocked) == 0);
    CHECK(status_of(writes_in_a_handler) == 0);
    CHECK(status_of(writes_under_a_wait) == 0);
    CHECK(status_of(starts_blocked) == 0);
    CHECK(status_of(is_ignored_when_sent) == 0);
    CHECK(status_of(ends_when_sent) == -1);
    CHECK(status_of(is_handled_when_sent) == 0);
    CHECK(status_of(old_names_are_behind_the_barrier) == 0);
    CHECK(status_of(later_names_are_behind_the_barrier) == 0);
    CHECK(status_of(writes_under_the_oldest_wait) == 0);
    CHECK(status_of(ticks_are_harmless) == 0);
    CHECK(status_of(frames_that_went_are_no_stacks) == 0);
    return check_ends();
}
