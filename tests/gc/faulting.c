/* Faults of the barrier: of a thread that was made with every signal blocked, of many at one word, and beside those of the program's own making. */
#define _GNU_SOURCE
#define GC_THREADS
#include <pthread.h>
#include <sched.h>
#include <signal.h>
#include <stdint.h>
#include <sys/mman.h>
#include <time.h>
#include "gc.h"
#include "beside.h"
#include "check.h"
#include "watch.h"

/* A thread that is made with every signal blocked writes to pages that are closed. */
enum { MANY = 20000 };
static void **all_of_them[MANY];
static void *write_to_all(void *data)
{
    while (!is_over)
        for (int k = 0; k < MANY; k++) ((void *volatile *)all_of_them[k])[1] = all_of_them[k];
    return data;
}
static int made_blocked(void)
{
    pthread_attr_t attributes;
    sigset_t every;
    pthread_t thread;
    GC_enable_incremental();
    for (int k = 0; k < MANY; k++) all_of_them[k] = GC_malloc(64);
    sigfillset(&every);
    pthread_attr_init(&attributes);
    pthread_attr_setsigmask_np(&attributes, &every);
    is_over = 0;
    pthread_create(&thread, &attributes, write_to_all, NULL);
    for (int k = 0; k < 1000000; k++) GC_malloc(32);
    is_over = 1;
    return pthread_join(thread, NULL);
}

/* Threads write to one word again and again: each time its page was closed they all fault, and all but one find it open. */
static _Atomic int writers;
static volatile uint64_t *one_word;
static void *write_to_one_word(void *data)
{
    for (writers++; !is_over;) *one_word = 1;
    return data;
}
static int writes_to_one_word(void)
{
    enum { CYCLES = 6000 };
    pthread_t all[3];
    int answer = 0;
    time_t latest = time(NULL) + 10;
    GC_enable_incremental();
    one_word = GC_malloc(64);
    is_over = writers = 0;
    for (int k = 0; k < 3; k++) pthread_create(&all[k], NULL, write_to_one_word, NULL);
    while (writers < 3) sched_yield();
    for (GC_word end = GC_get_gc_no() + CYCLES; GC_get_gc_no() < end && time(NULL) < latest; GC_start_incremental_collection())
        while (GC_collect_a_little()) continue;
    is_over = 1;
    for (int k = 0; k < 3; k++) answer |= pthread_join(all[k], NULL);
    return answer;
}

/* The program protects a page of an object, and opens it in its handler. */
static char *protected;
static volatile int opened;
static void open_it(int number)
{
    (void)number;
    opened++;
    mprotect(protected, 4096, PROT_READ | PROT_WRITE);
}
static int protects_itself(void)
{
    GC_enable_incremental();
    signal(SIGSEGV, open_it);
    for (int k = 0; k < 300000; k++) GC_malloc(64);
    char *object = GC_malloc(16384);
    protected = (char *)(((uintptr_t)object + 4095) & ~(uintptr_t)4095);
    for (int k = 1; k <= 3; k++) {
        if (mprotect(protected, 4096, PROT_READ) != 0) return 9;
        *(volatile char *)protected = (char)k;
        if (opened != k || *protected != k) return k;
    }
    return 0;
}

/* And one of a pointer-free object: that stays protected, through cycles that open pages beside it and a full collection. */
static void *volatile kept[3000];
static int protects_what_is_pointer_free(void)
{
    GC_enable_incremental();
    signal(SIGSEGV, open_it);
    for (int k = 0; k < 300000; k++) kept[k % 3000] = GC_malloc(64);
    char *object = GC_malloc_atomic(16384);
    protected = (char *)(((uintptr_t)object + 4095) & ~(uintptr_t)4095);
    if (mprotect(protected, 4096, PROT_NONE) != 0) return 9;
    for (int k = 0; k < 2000000; k++) kept[k % 3000] = GC_malloc(64);
    GC_start_incremental_collection();
    GC_gcollect();
    *(volatile char *)protected = 1;
    return opened == 1 ? 0 : 1;
}

int main(void)
{
    pid_t watcher = watch(300);
    GC_INIT();
    GC_allow_register_threads();
    CHECK(ends_well(made_blocked, 60));
    CHECK(ends_well(writes_to_one_word, 100));
    CHECK(ends_well(protects_itself, 60));
    CHECK(ends_well(protects_what_is_pointer_free, 60));
    kill(watcher, SIGKILL);
    return check_ends();
}
