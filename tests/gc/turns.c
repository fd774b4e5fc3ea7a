/* Threads that would hold others off for ever: who collects without an end, asks for so much that a collection is always due, or has the lock
 * nearly always, lets others go on. */
#define _GNU_SOURCE
#define GC_THREADS
#include <dirent.h>
#include <pthread.h>
#include <linux/filter.h>
#include <linux/seccomp.h>
#include <sched.h>
#include <signal.h>
#include <stddef.h>
#include <sys/prctl.h>
#include <sys/resource.h>
#include <sys/syscall.h>
#include <time.h>
#include <ucontext.h>
#include "gc.h"
#include "beside.h"
#include "check.h"
#include "states.h"
#include "watch.h"

/* Who collects without an end lets others come, who need the lock and are stopped. How many collections that takes tells it, whatever time it
 * takes; but where the machine has more work than processors they may wait for these: so it is tried again. */
enum { THREADS = 300 };
static GC_word collections_beside_threads(void)
{
    pthread_t collector;
    int right = 0;
    is_over = 0;
    pthread_create(&collector, NULL, collect, NULL);
    GC_word before = GC_get_gc_no();
    for (int k = 0; k < THREADS; k++) {
        pthread_t thread;
        right += pthread_create(&thread, NULL, ask_once, NULL) == 0 && pthread_join(thread, NULL) == 0;
    }
    GC_word count = GC_get_gc_no() - before;
    is_over = 1;
    return pthread_join(collector, NULL) == 0 && right == THREADS ? count : (GC_word)-1;
}
static int collects_on(void)
{
    enum { TRIES = 10 };
    for (int k = 0; k < TRIES; k++)
        if (collections_beside_threads() <= 10 * THREADS) return 0;
    return 1;
}

/* Who asks for so much that a collection is due again and again lets others go on, also where all have one processor, and nobody is taken off it
 * for who was woken. */
static _Atomic GC_word most_collections;
static void *ask_without_end(void *data)
{
    while (!is_over && GC_get_gc_no() < most_collections) GC_malloc(64);
    return data;
}
static int collections_go_on_in_rests(void)
{
    enum { RESTS = 300, MOST = 3000 };
    pthread_t asking;
    int answer = 0;
    is_over = 0;
    most_collections = GC_get_gc_no() + MOST;
    pthread_create(&asking, NULL, ask_without_end, NULL);
    for (int k = 0; k < RESTS && !answer; k++) {
        most_collections = GC_get_gc_no() + MOST;
        rest(0.001);
        answer = GC_get_gc_no() >= most_collections;
    }
    is_over = 1;
    return pthread_join(asking, NULL) == 0 ? answer : 2;
}
static int goes_on_beside_requests(void)
{
    enum { TRIES = 4 }; /* what else the machine does may hold one off */
    have_one_processor();
    for (int k = 0; k < TRIES; k++)
        if (collections_go_on_in_rests() == 0) return 0;
    return 1;
}

/* Who has the lock nearly always lets those have it who wait. */
static _Atomic int turns;
static void *hold_for_long(void *data)
{
    turns++;
    rest(0.001);
    return data;
}
static void *hold_again_and_again(void *data)
{
    while (!is_over) GC_call_with_alloc_lock(hold_for_long, data);
    return data;
}
enum { TIMES = 40 };
static int turns_beside_requests(void)
{
    pthread_t holding;
    is_over = turns = 0;
    pthread_create(&holding, NULL, hold_again_and_again, NULL);
    while (turns == 0) sched_yield();
    for (int k = 0; k < TIMES; k++) GC_malloc(100000);
    is_over = 1;
    return pthread_join(holding, NULL) == 0 ? turns : 1000000;
}
static int lets_others_have_the_lock(void)
{
    enum { TRIES = 3, MOST = 5 * TIMES };
    for (int k = 0; k < TRIES; k++)
        if (turns_beside_requests() <= MOST) return 0;
    return 1;
}

/* Who was woken in vain some times is handed the lock: who gives it away sleeps until another has it, which the kernel counts, whatever time that
 * takes. Else nobody sleeps who gives it away, since there are no collections. */
static _Atomic pid_t asks;
static void *ask_again_and_again(void *data)
{
    asks = gettid();
    while (!is_over) GC_call_with_alloc_lock(ask_once, data);
    return data;
}
static long sleeps(void)
{
    struct rusage used;
    return getrusage(RUSAGE_THREAD, &used) == 0 ? used.ru_nvcsw : 0;
}
static void *until_it_sleeps(void *slept)
{
    while (!is_asleep(asks)) rest(0.0001);
    *(long *)slept = sleeps();
    return NULL;
}
static int hands_the_lock_over(void)
{
    enum { ENOUGH = 5, MOST = 500 };
    pthread_t asking;
    long slept = 0;
    int handed = 0;
    have_one_processor();
    GC_disable();
    is_over = 0;
    pthread_create(&asking, NULL, ask_again_and_again, NULL);
    while (!asks) rest(0.0001);
    for (int k = 0; k < MOST && handed < ENOUGH; k++) {
        GC_call_with_alloc_lock(until_it_sleeps, &slept);
        handed += sleeps() > slept;
    }
    is_over = 1;
    return pthread_join(asking, NULL) == 0 && handed == ENOUGH ? 0 : 1;
}

/* Where nobody else runs but the collector's own thread, who collects again and again rests for nobody. The kernel tells of each rest, where it
 * can. */
static volatile int rests;
static void on_rest(int number, siginfo_t *info, void *context)
{
    (void)number;
    (void)info;
    rests++;
    ((ucontext_t *)context)->uc_mcontext.gregs[REG_RAX] = 0;
}
static int tells_of_rests(void)
{
    struct sock_filter steps[] = {
        BPF_STMT(BPF_LD | BPF_W | BPF_ABS, offsetof(struct seccomp_data, nr)),
        BPF_JUMP(BPF_JMP | BPF_JEQ | BPF_K, SYS_nanosleep, 0, 1),
        BPF_STMT(BPF_RET | BPF_K, SECCOMP_RET_TRAP),
        BPF_STMT(BPF_RET | BPF_K, SECCOMP_RET_ALLOW),
    };
    struct sock_fprog filter = { .len = sizeof steps / sizeof *steps, .filter = steps };
    struct sigaction action = { .sa_sigaction = on_rest, .sa_flags = SA_SIGINFO };
    if (sigaction(SIGSYS, &action, NULL) != 0 || prctl(PR_SET_NO_NEW_PRIVS, 1, 0, 0, 0) != 0) return 0;
    return prctl(PR_SET_SECCOMP, SECCOMP_MODE_FILTER, &filter) == 0;
}
/* The collector's own thread, or none. */
static pid_t collector(void)
{
    pid_t found = 0;
    DIR *all = opendir("/proc/self/task");
    for (struct dirent *one; all && (one = readdir(all));)
        if (atoi(one->d_name) > 0 && atoi(one->d_name) != getpid()) found = atoi(one->d_name);
    if (all) closedir(all);
    return found;
}
static int rests_for_nobody(void)
{
    enum { COLLECTIONS = 20 };
    GC_enable_collector_thread();
    while (!collector())
        for (int k = 0; k < 1000; k++) GC_malloc(100);
    while (!is_asleep(collector())) rest(0.0001);  /* before it first sleeps it counts as one that runs */
    if (!tells_of_rests()) return 0;
    for (int k = 0; k < COLLECTIONS; k++) GC_gcollect();
    return rests;
}

int main(void)
{
    pid_t watcher = watch(300);
    GC_INIT();
    GC_allow_register_threads();
    CHECK(ends_well(collects_on, 100));
    CHECK(ends_well(goes_on_beside_requests, 100));
    CHECK(ends_well(lets_others_have_the_lock, 60));
    CHECK(ends_well(hands_the_lock_over, 60));
    CHECK(ends_well(rests_for_nobody, 100));
    kill(watcher, SIGKILL);
    return check_ends();
}
