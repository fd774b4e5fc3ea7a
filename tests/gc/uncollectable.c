/* Objects that stay until they are freed: nothing names them but a hidden number, and with what they lead to they are there; a freed one comes
 * back as an ordinary object, which goes when nothing leads to it; figures; and threads that make and free them beside collections. */
#define _GNU_SOURCE
#define GC_THREADS
#include <pthread.h>
#include <stdint.h>
#include "gc.h"
#include "check.h"
#include "watch.h"

#define NOINLINE __attribute__((noinline))
enum { MANY = 200, THREADS = 3, HELD = 64, STEPS = 60000 };
struct held { uint64_t number; struct held *to; };

static NOINLINE void clear_stack(void)
{
    volatile char below[20000];
    for (size_t k = 0; k < sizeof below; k++) below[k] = 0;
}

static NOINLINE GC_hidden_pointer make(uint64_t number)
{
    struct held *one = GC_malloc_uncollectable(sizeof *one);
    one->number = number;
    one->to = GC_malloc(sizeof *one);
    one->to->number = ~number;
    return GC_HIDE_POINTER(one);
}
static NOINLINE int is_right(GC_hidden_pointer hidden, uint64_t number)
{
    const struct held *one = GC_REVEAL_POINTER(hidden);
    return one->number == number && one->to->number == ~number;
}
static NOINLINE void fill_the_heap(void)
{
    for (int k = 0; k < 20000; k++) *(uint64_t *)GC_malloc(sizeof(struct held)) = 1;
}

static GC_hidden_pointer hidden[MANY];
static NOINLINE void stay(void)
{
    int right = 0;
    for (uint64_t k = 0; k < MANY; k++) hidden[k] = make(k);
    for (int round = 0; round < 3; round++) {
        clear_stack();
        GC_gcollect();
        fill_the_heap();
    }
    for (uint64_t k = 0; k < MANY; k++) right += is_right(hidden[k], k);
    CHECK(right == MANY);
}

/* Each is freed, and its place is made an ordinary object, which nothing leads to. */
static NOINLINE void free_and_hide(void)
{
    for (int k = 0; k < MANY; k++) {
        GC_free(GC_REVEAL_POINTER(hidden[k]));
        struct held *next = GC_malloc(sizeof *next);
        next->number = 1;
        hidden[k] = GC_HIDE_POINTER(next);
        GC_general_register_disappearing_link((void **)&hidden[k], next);
    }
}
static NOINLINE void go_when_freed(void)
{
    int gone = 0;
    free_and_hide();
    clear_stack();
    GC_gcollect();
    fill_the_heap();
    for (int k = 0; k < MANY; k++) gone += hidden[k] == 0;
    CHECK(gone >= MANY - 3);
}

/* One that was just made comes back at once, with nothing in it and as what is asked for, and counts no more. */
static NOINLINE void come_back(size_t bytes)
{
    GC_word before = GC_get_non_gc_bytes();
    int same = 0, zeros = 1, counted = 1;
    GC_disable();
    for (int k = 0; k < MANY; k++) {
        unsigned char *old = GC_malloc_uncollectable(bytes), *again = NULL;
        counted &= GC_get_non_gc_bytes() >= before + bytes;
        memset(old, 0x5A, bytes);
        GC_free(old);
        counted &= GC_get_non_gc_bytes() == before;
        for (int tries = 0; tries < MANY && again != old; tries++) {
            again = GC_malloc(bytes);
            for (size_t at = 0; at < bytes; at++) zeros &= again[at] == 0;
        }
        same += again == old;
    }
    GC_enable();
    CHECK(zeros);
#ifndef OTHER
    CHECK(same == MANY && counted);
#endif
}

static uint64_t next_random(uint64_t *random) { return (*random = *random * 6364136223846793005u + 1442695040888963407u) >> 33; }

/* Each thread holds some, and frees one for each that it makes. */
static void *hold_some(void *data)
{
    GC_hidden_pointer all[HELD] = { 0 };
    uint64_t numbers[HELD], random = (uintptr_t)data, wrong = 0;
    for (uint64_t k = 0; k < STEPS; k++) {
        uint64_t at = next_random(&random) % HELD;
        wrong += all[at] && !is_right(all[at], numbers[at]);
        if (all[at]) GC_free(GC_REVEAL_POINTER(all[at]));
        all[at] = make(k);
        numbers[at] = k;
        *(uint64_t *)GC_malloc(sizeof(struct held)) = k;
        if (k % 1000 == 0) GC_gcollect();
    }
    for (int k = 0; k < HELD; k++) wrong += !is_right(all[k], numbers[k]);
    for (int k = 0; k < HELD; k++) GC_free(GC_REVEAL_POINTER(all[k]));
    return (void *)(uintptr_t)wrong;
}
static void threads(void)
{
    pthread_t all[THREADS];
    GC_word before = GC_get_non_gc_bytes();
    for (uintptr_t k = 0; k < THREADS; k++) GC_pthread_create(&all[k], NULL, hold_some, (void *)(k + 1));
    for (int k = 0; k < THREADS; k++) {
        void *wrong = &all;
        GC_pthread_join(all[k], &wrong);
        CHECK(wrong == NULL);
    }
#ifndef OTHER
    CHECK(GC_get_non_gc_bytes() == before);
#else
    (void)before;
#endif
}

int main(void)
{
    pid_t watcher = watch(300);
    GC_INIT();
    if (getenv("INCREMENTAL")) GC_enable_incremental();
    stay();
    go_when_freed();
    come_back(16);
    come_back(100);
    come_back(5000);
    threads();
    kill(watcher, SIGKILL);
    return check_ends();
}
