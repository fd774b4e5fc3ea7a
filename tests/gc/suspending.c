/* Threads that the program suspends: before they run, by themselves, while the world is stopped, while they wait for the lock, or while the user
 * changes. */
#define _GNU_SOURCE
#define GC_THREADS
#include <pthread.h>
#include <sched.h>
#include <signal.h>
#include <time.h>
#include "gc.h"
#include "beside.h"
#include "check.h"
#include "states.h"
#include "watch.h"

/* Suspended as soon as it is made: it doesn't run before it is told to, and collections find what it has. */
extern void GC_suspend_thread(pthread_t thread);
extern void GC_resume_thread(pthread_t thread);
static _Atomic long steps;
static void *step(void *data)
{
    for (int k = 0; k < 1000; k++) steps += GC_malloc(64) != NULL;
    return data;
}
static void suspended(void)
{
    int ran = 0;
    for (int k = 0; k < 200; k++) {
        pthread_t thread;
        pthread_create(&thread, NULL, step, NULL);
        GC_suspend_thread(thread);
        long seen = steps;
        GC_gcollect();
        ran += steps != seen;
        GC_resume_thread(thread);
        pthread_join(thread, NULL);
    }
    CHECK(ran == 0 && steps == 200 * 1000);
}

/* A thread suspends itself, and is resumed, and another one collects between any two of the first instructions of that (x86-64 traps behind
 * each), but for those under the lock, where nobody waits for that for long. */
#define TRAPS(operation, bits) __asm__ volatile("pushfq; " operation " %0, (%%rsp); popfq" : : "i"(bits) : "memory", "cc")
enum { TRAP_FLAG = 0x100 };
extern int GC_is_thread_suspended(pthread_t thread);
static _Atomic int is_asked;
static void ask_for_a_collection(int number)
{
    enum { FIRST = 1500 };
    static int moments;
    (void)number;
    if (++moments > FIRST) return;
    is_asked = 1;
    for (int k = 0; is_asked && k < 50; k++) rest(0.0001);
}
static void *suspend_itself(void *data)
{
    GC_suspend_thread(pthread_self());  /* the loader has found all that this calls */
    TRAPS("orq", TRAP_FLAG);
    GC_suspend_thread(pthread_self());
    TRAPS("andq", ~TRAP_FLAG);
    is_over = 1;
    return data;
}
static int suspends_itself(void)
{
    pthread_t thread;
    void *answer = NULL;
    is_over = 0;
    steps = 0;
    sigaction(SIGTRAP, &(struct sigaction){ .sa_handler = ask_for_a_collection }, NULL);
    pthread_create(&thread, NULL, suspend_itself, &steps);
    for (int idle = 0; !is_over; idle++, rest(0.00005)) {
        if (!is_asked && idle > 200 && GC_is_thread_suspended(thread)) GC_resume_thread(thread);
        if (!is_asked) continue;
        GC_gcollect();
        is_asked = idle = 0;
        steps++;
    }
    return pthread_join(thread, &answer) == 0 && answer == &steps && steps > 20 ? 0 : 1;
}

/* One that is resumed while the world is stopped goes on when the world does, and no other thread before that. */
extern void GC_stop_world_external(void);
extern void GC_start_world_external(void);
static void *step_on(void *data)
{
    while (!is_over) steps++;
    return data;
}
static void wait_for_steps(void)
{
    for (long seen = steps; steps == seen;) sched_yield();
}
static int resumed_in_a_stop(void)
{
    pthread_t all[2];
    int ran = 0;
    is_over = 0;
    for (int k = 0; k < 2; k++) pthread_create(&all[k], NULL, step_on, NULL);
    for (int k = 0; k < 20; k++) {
        wait_for_steps();
        GC_suspend_thread(all[k % 2]);
        GC_stop_world_external();
        long seen = steps;
        GC_resume_thread(all[k % 2]);
        rest(0.002);
        ran += steps != seen;
        GC_start_world_external();
    }
    is_over = 1;
    for (int k = 0; k < 2; k++) pthread_join(all[k], NULL);
    return ran;
}

/* Threads that wait for the lock are suspended, maybe when they were woken for it: another one that waits gets it all the same. */
static void *ask_for_large_ones(void *data)
{
    while (!is_over) GC_free(GC_malloc(100000));
    return data;
}
static void *do_nothing(void *data) { return data; }
static void *block_again_and_again(void *data)
{
    for (; !is_over; steps++) GC_do_blocking(do_nothing, NULL);
    return data;
}
static int goes_on_beside_suspended_ones(void)
{
    enum { ROUNDS_OF_THESE = 3000, ASKING = 2, LOOKS = 20000 };
    pthread_t all[ASKING], blocked;
    time_t latest = time(NULL) + 20;
    int stuck = 0;
    is_over = 0;
    for (int k = 0; k < ASKING; k++) pthread_create(&all[k], NULL, ask_for_large_ones, NULL);
    pthread_create(&blocked, NULL, block_again_and_again, NULL);
    for (int round = 0; round < ROUNDS_OF_THESE && !stuck && time(NULL) < latest; round++) {
        rest(round * 7 % 300 / 1e6);
        for (int k = 0; k < ASKING; k++) GC_suspend_thread(all[k]);
        long seen = steps, looks = 0;
        for (; looks < LOOKS && steps == seen; looks++) rest(looks < 100 ? 0.00001 : 0.001);
        stuck = looks == LOOKS;
        for (int k = 0; k < ASKING; k++) GC_resume_thread(all[k]);
    }
    is_over = 1;
    for (int k = 0; k < ASKING; k++) pthread_join(all[k], NULL);
    return pthread_join(blocked, NULL) == 0 ? stuck : 2;
}

/* The same in the moment that it is about: of two that sleep and wait for the lock, the first one is woken, and is suspended before it has run. */
static _Atomic pid_t asks, passes;
static _Atomic enum { COMES, IS_BLOCKED, MAY_PASS, IS_AT_LOCK } stage;
static void *ask_again_and_again(void *data)
{
    asks = gettid();
    while (!is_over) GC_free(GC_malloc(100000));
    return data;
}
static void *wait_to_pass(void *data)
{
    stage = IS_BLOCKED;
    while (stage == IS_BLOCKED && !is_over) rest(0.0001);
    stage = IS_AT_LOCK;
    return data;
}
static void *pass_again_and_again(void *data)
{
    passes = gettid();
    for (; !is_over; steps++) {
        stage = COMES;
        GC_do_blocking(wait_to_pass, NULL);
    }
    return data;
}
static void *until_both_sleep(void *data)
{
    while (!is_asleep(asks)) rest(0.0001);
    stage = MAY_PASS;
    while (stage != IS_AT_LOCK || !is_asleep(passes)) rest(0.0001);
    return data;
}
/* It isn't, where it sleeps on, again and again. */
static int is_woken(long seen)
{
    enum { LOOKS = 50 };
    for (int slept = 0; steps == seen && slept < LOOKS; rest(0.001)) slept = is_asleep(passes) ? slept + 1 : 0;
    return steps != seen;
}
static int wakes_another_one(void)
{
    enum { ROUNDS_OF_THESE = 50 };
    pthread_t asking, passing;
    int stuck = 0;
    have_one_processor();
    is_over = 0;
    pthread_create(&asking, NULL, ask_again_and_again, NULL);
    pthread_create(&passing, NULL, pass_again_and_again, NULL);
    for (int round = 0; round < ROUNDS_OF_THESE && !stuck; round++) {
        while (!asks || stage != IS_BLOCKED) rest(0.0001);
        long seen = steps;
        GC_call_with_alloc_lock(until_both_sleep, NULL);
        GC_suspend_thread(asking);
        stuck = !is_woken(seen);
        GC_resume_thread(asking);
    }
    is_over = 1;
    pthread_join(asking, NULL);
    return pthread_join(passing, NULL) == 0 ? stuck : 2;
}

/* The process changes its user, which each thread does by a signal of the C library's, while one is suspended. */
static void *wait_for_the_end(void *data)
{
    while (!is_over) GC_malloc(64);
    return data;
}
static int changes_its_user(void)
{
    pthread_t thread;
    is_over = 0;
    if (pthread_create(&thread, NULL, wait_for_the_end, NULL) != 0) return 1;
    rest(0.01);
    GC_suspend_thread(thread);
    if (setuid(getuid()) != 0) return 2;
    is_over = 1;
    GC_resume_thread(thread);
    return pthread_join(thread, NULL);
}

int main(void)
{
    pid_t watcher = watch(300);
    GC_INIT();
    GC_allow_register_threads();
    suspended();
    CHECK(ends_well(suspends_itself, 100));
    CHECK(ends_well(resumed_in_a_stop, 60));
    CHECK(ends_well(goes_on_beside_suspended_ones, 200));
    CHECK(ends_well(wakes_another_one, 100));
    CHECK(ends_well(changes_its_user, 60));
    kill(watcher, SIGKILL);
    return check_ends();
}
