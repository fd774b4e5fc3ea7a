/* Threads that wait for signals while others collect: for every one, by each call for it, and they are stopped none the less, and told of those
 * alone that they were sent; and until they are cancelled. And what stays behind of threads that had a stack for signals in a frame. */
#define _GNU_SOURCE
#define GC_THREADS
#include <errno.h>
#include <pthread.h>
#include <signal.h>
#include <stdatomic.h>
#include <stdint.h>
#include <sys/signalfd.h>
#include <time.h>
#include "gc.h"
#include "check.h"
#include "watch.h"

static atomic_int are_ready;
static void rest(long milliseconds)
{
    struct timespec left = { milliseconds / 1000, milliseconds % 1000 * 1000000 };
    while (nanosleep(&left, &left) != 0) continue;
}

static int next_of_file(const sigset_t *signals)
{
    struct signalfd_siginfo came = { 0 };
    int file = signalfd(-1, signals, SFD_CLOEXEC);
    are_ready++;
    while (read(file, &came, sizeof came) != sizeof came) continue;
    close(file);
    return (int)came.ssi_signo;
}

enum how { WAIT, WAIT_INFO, TIMED, BY_FILE, HOWS };
static int next_signal(enum how how, const sigset_t *signals)
{
    int number = -1;
    siginfo_t came = { 0 };
    if (how == BY_FILE) return next_of_file(signals);
    are_ready++;
    if (how == WAIT) return sigwait(signals, &number) == 0 ? number : -1;
    while (number == -1)
        number = how == WAIT_INFO ? sigwaitinfo(signals, &came) : sigtimedwait(signals, &came, &(struct timespec){ 100, 0 });
    return came.si_signo == number && came.si_pid == getpid() ? number : -2;
}

static void *wait_for_one(void *how)
{
    sigset_t all;
    sigfillset(&all);
    pthread_sigmask(SIG_BLOCK, &all, NULL);
    return (void *)(intptr_t)next_signal((enum how)(uintptr_t)how, &all);
}
static int wait_for_every_signal(void)
{
    pthread_t threads[HOWS];
    int right = 0;
    for (uintptr_t k = 0; k < HOWS; k++) pthread_create(&threads[k], NULL, wait_for_one, (void *)k);
    while (are_ready < HOWS) rest(1);
    rest(50);
    for (int k = 0; k < 20; k++) GC_gcollect();
    for (int k = 0; k < HOWS; k++) {
        void *answer = NULL;
        pthread_kill(threads[k], SIGUSR1);
        right += pthread_join(threads[k], &answer) == 0 && (intptr_t)answer == SIGUSR1;
    }
    return HOWS - right;
}

static int no_time_is_no_signal(void)
{
    sigset_t one;
    int number;
    sigemptyset(&one);
    sigaddset(&one, SIGUSR2);
    errno = 0;
    if (sigtimedwait(&one, NULL, &(struct timespec){ 0, 1000 }) != -1 || errno != EAGAIN) return 1;
    sigprocmask(SIG_BLOCK, &one, NULL);
    raise(SIGUSR2);
    errno = 5;
    return sigwait(&one, &number) == 0 && number == SIGUSR2 && errno == 5 ? 0 : 2;
}

/* One that waits for any signal is cancelled there. */
static void *wait_for_ever(void *how)
{
    sigset_t none;
    sigemptyset(&none);
    are_ready++;
    for (int number;;) {
        if (how)
            sigwait(&none, &number);
        else
            sigsuspend(&none);
    }
    return NULL;
}
static int is_cancelled(void)
{
    for (int k = 0; k < 2; k++) {
        pthread_t thread;
        void *answer = NULL;
        are_ready = 0;
        pthread_create(&thread, NULL, wait_for_ever, k ? &are_ready : NULL);
        while (!are_ready) rest(1);
        rest(10);
        pthread_cancel(thread);
        if (pthread_join(thread, &answer) != 0 || answer != PTHREAD_CANCELED) return k + 1;
    }
    return 0;
}

/* The old names block neither. */
static int old_names_leave_two_out(void)
{
#pragma GCC diagnostic push
#pragma GCC diagnostic ignored "-Wdeprecated-declarations"
    sigset_t now;
    int old = sigsetmask(-1);
    if (old != 0 || sigprocmask(SIG_SETMASK, NULL, &now) != 0) return 1;
    if (!sigismember(&now, SIGUSR1) || sigismember(&now, SIGSEGV) || sigismember(&now, SIGPWR)) return 2;
    sigsetmask(0);
    if (sigblock(1 << (SIGUSR2 - 1) | 1 << (SIGSEGV - 1)) != 0 || sigprocmask(SIG_SETMASK, NULL, &now) != 0) return 3;
    return !sigismember(&now, SIGUSR1) && sigismember(&now, SIGUSR2) && !sigismember(&now, SIGSEGV) ? 0 : 4;
#pragma GCC diagnostic pop
}

/* A signal waits for a thread that doesn't block it, as its attributes say: it is handled there once the thread is known, though the handler makes a
 * request. The attributes are as they were. */
static void *volatile made;
static void make_one(int number) { made = GC_malloc((size_t)number); }
static void *wait_for_it(void *data)
{
    while (!made || are_ready < 1) rest(1);
    return data;
}
static int is_handled_first(void)
{
    sigset_t none, one, seen;
    pthread_t thread;
    pthread_attr_t attributes;
    sigemptyset(&none);
    sigemptyset(&one);
    sigaddset(&one, SIGUSR1);
    signal(SIGUSR1, make_one);
    pthread_sigmask(SIG_BLOCK, &one, NULL);
    pthread_attr_init(&attributes);
    pthread_attr_setsigmask_np(&attributes, &none);
    kill(getpid(), SIGUSR1);
    if (pthread_create(&thread, &attributes, wait_for_it, NULL) != 0) return 1;
    while (!made) rest(1);
    for (int k = 0; k < 3; k++) GC_gcollect();
    are_ready = 1;
    if (pthread_join(thread, NULL) != 0) return 2;
    if (pthread_attr_getsigmask_np(&attributes, &seen) != 0 || sigismember(&seen, SIGUSR1)) return 3;
    return pthread_attr_destroy(&attributes);
}

/* Pages of addresses that the process has. */
static long addresses(void)
{
    long pages = 0;
    FILE *file = fopen("/proc/self/statm", "r");
    if (!file || fscanf(file, "%ld", &pages) != 1) pages = -1;
    if (file) fclose(file);
    return pages;
}

enum { FRAME = 1 << 18, THREADS = 400 };
static void *have_a_stack(void *data)
{
    char frame[FRAME];
    stack_t stack = { .ss_sp = frame, .ss_size = sizeof frame };
    return sigaltstack(&stack, NULL) == 0 ? data : NULL;
}
static int leaves_no_stacks(void)
{
    long before = 0;
    for (int k = 0; k < THREADS + 10; k++) {
        pthread_t thread;
        void *answer = NULL;
        if (k == 10) before = addresses();
        if (pthread_create(&thread, NULL, have_a_stack, &before) != 0) return 1;
        if (pthread_join(thread, &answer) != 0 || answer != &before) return 2;
    }
    return addresses() - before < (long)THREADS * FRAME / 4096 / 4 ? 0 : 3;
}

int main(void)
{
    pid_t watcher = watch(300);
    GC_INIT();
    GC_allow_register_threads();
    if (getenv("INCREMENTAL")) GC_enable_incremental();
    CHECK(status_of(wait_for_every_signal) == 0);
    CHECK(status_of(no_time_is_no_signal) == 0);
    CHECK(ends_well(is_cancelled, 60));
    CHECK(status_of(old_names_leave_two_out) == 0);
    CHECK(status_of(leaves_no_stacks) == 0);
    CHECK(status_of(is_handled_first) == 0);
    kill(watcher, SIGKILL);
    return check_ends();
}
