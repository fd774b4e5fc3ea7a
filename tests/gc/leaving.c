/* Functions that are left otherwise than by a return: one that GC_do_blocking has called, and one that only writes, by a cancellation; finalizers,
 * and one that is called under the lock, by a jump; and such a one by its thread's end. What comes behind is as ever. Over bdwgc (OTHER) the
 * jumps alone. */
#define _GNU_SOURCE
#define GC_THREADS
#include <pthread.h>
#include <setjmp.h>
#include <stdatomic.h>
#include <stdbool.h>
#include <stdint.h>
#include <stdlib.h>
#include <time.h>
#include <unistd.h>
#ifdef OTHER
#include <gc/gc.h>
#else
#include "gc.h"
#endif
#include "check.h"
#include "watch.h"

static void rest(long milliseconds)
{
    struct timespec left = { milliseconds / 1000, milliseconds % 1000 * 1000000 };
    while (nanosleep(&left, &left) != 0) continue;
}

#ifndef OTHER
static atomic_int stage;
static void come_to(int which)
{
    stage = which;
    while (stage == which) rest(1);
}

/* Far below where the thread stood when it was blocked. What only this frame names is kept, while another thread collects. */
enum { WORDS = 4, FAR = 60000, MANY = 20000 };
__attribute__((noinline)) static int keeps_what_it_makes(int stop)
{
    volatile char frame[FAR];
    frame[0] = 1;
    uintptr_t *volatile made = GC_malloc(WORDS * sizeof *made);
    for (uintptr_t k = 0; k < WORDS; k++) made[k] = k + 12345;
    come_to(stop);
    for (int k = 0; k < MANY; k++) memset(GC_malloc(WORDS * sizeof *made), 7, WORDS * sizeof *made);
    int right = frame[0];
    for (uintptr_t k = 0; k < WORDS; k++) right &= made[k] == k + 12345;
    return right;
}

static int was_right;
static void clean(void *data)
{
    (void)data;
    was_right = keeps_what_it_makes(2);
}
static void *wait_for_ever(void *data)
{
    for (;;) pause();
    return data;
}
static void *block_in_active(void *data) { return GC_do_blocking(wait_for_ever, data); }
static void *block_twice(void *data) { return GC_call_with_gc_active(block_in_active, data); }
static void *be_cancelled(void *is_nested)
{
    pthread_cleanup_push(clean, NULL);
    stage = 1;
    GC_do_blocking(is_nested ? block_twice : wait_for_ever, NULL);
    pthread_cleanup_pop(0);
    return is_nested;
}
static void cancelled_while_blocked(void *is_nested)
{
    pthread_t thread;
    void *answer = NULL;
    stage = 0;
    was_right = 0;
    pthread_create(&thread, NULL, be_cancelled, is_nested);
    while (stage != 1) rest(1);
    rest(20);
    pthread_cancel(thread);
    while (stage != 2) rest(1);
    for (int k = 0; k < 3; k++) GC_gcollect();
    stage = 3;
    CHECK(pthread_join(thread, &answer) == 0 && answer == PTHREAD_CANCELED && was_right);
}

/* Destructors of keys that set them again, as they may in all rounds but the last: what a key names is kept before each but that one's. The first
 * key's destructor lets another thread collect, and ask for as much, before the second key's is called. */
enum { ROUND = 3 };
static pthread_key_t first_key, second_key;
static int keys_round;
static uintptr_t *make_numbers(int from)
{
    uintptr_t *made = GC_malloc(WORDS * sizeof *made);
    for (uintptr_t k = 0; k < WORDS; k++) made[k] = k + (uintptr_t)from;
    return made;
}
static void come_again(void *data)
{
    if (++keys_round == ROUND) come_to(2);
    if (keys_round < ROUND) pthread_setspecific(first_key, data);
}
static void look_and_come_again(void *numbers)
{
    const uintptr_t *seen = numbers;
    for (uintptr_t k = 0; k < WORDS; k++) was_right += seen[k] == k + (uintptr_t)keys_round;
    if (keys_round < ROUND) pthread_setspecific(second_key, make_numbers(keys_round + 1));
}
static void *set_keys(void *data)
{
    pthread_setspecific(first_key, data);
    pthread_setspecific(second_key, make_numbers(1));
    return NULL;
}
static void destroyed_again_and_again(void)
{
    pthread_t thread;
    stage = 0;
    was_right = 0;
    CHECK(pthread_key_create(&first_key, come_again) == 0 && pthread_key_create(&second_key, look_and_come_again) == 0);
    pthread_create(&thread, NULL, set_keys, &stage);
    while (stage != 2) rest(1);
    for (int k = 0; k < 3; k++) GC_gcollect();
    for (int k = 0; k < MANY; k++) memset(GC_malloc(WORDS * sizeof(uintptr_t)), 7, WORDS * sizeof(uintptr_t));
    stage = 3;
    CHECK(pthread_join(thread, NULL) == 0 && was_right == ROUND * WORDS);
}

/* Threads that may be cancelled at any instruction, and only write into objects, while another thread makes steps. */
enum { OBJECTS = 2000, OBJECT = 3000, WRITERS = 4, CANCELS = 400 };
static void ***written;
static void *write_for_ever(void *data)
{
    int old;
    pthread_setcanceltype(PTHREAD_CANCEL_ASYNCHRONOUS, &old);
    for (;;)
        for (int k = 0; k < OBJECTS; k++) written[k][1] = written[k * 7 % OBJECTS];
    return data;
}
static atomic_bool is_over;
static void *make_steps(void *data)
{
    while (!is_over)
        for (int k = 0; k < 300; k++) (void)GC_malloc(k % 2 ? 16 : 64 + (size_t)GC_collect_a_little());
    return data;
}
static int is_cancelled_while_it_writes(void)
{
    pthread_t stepper, writers[WRITERS];
    GC_enable_incremental();
    written = GC_malloc_uncollectable(OBJECTS * sizeof *written);
    for (int k = 0; k < OBJECTS; k++) written[k] = GC_malloc(OBJECT);
    pthread_create(&stepper, NULL, make_steps, NULL);
    for (int k = 0; k < CANCELS; k += WRITERS) {
        for (int j = 0; j < WRITERS; j++) pthread_create(&writers[j], NULL, write_for_ever, NULL);
        rest(k % 7 + 1);
        for (int j = 0; j < WRITERS; j++) pthread_cancel(writers[j]);
        for (int j = 0; j < WRITERS; j++) pthread_join(writers[j], NULL);
    }
    is_over = true;
    return pthread_join(stepper, NULL);
}
#endif

static jmp_buf back;
static int jumps, ran;
static void finalize(void *object, void *data)
{
    (void)object;
    (void)data;
    ran++;
    if (jumps) {
        jumps = 0;
        longjmp(back, 1);
    }
}
__attribute__((noinline)) static void make_finalized(int count)
{
    for (int k = 0; k < count; k++) GC_REGISTER_FINALIZER(GC_MALLOC(16), finalize, NULL, NULL, NULL);
}

/* The stack stays deeper than where that one was called. */
__attribute__((noinline)) static int runs_others_below(int depth)
{
    volatile char frame[100];
    frame[0] = 0;
    if (depth > 0) return runs_others_below(depth - 1) + frame[0];
    for (int k = 0; k < 2000 && ran < 20; k++) {
        for (int j = 0; j < 1000; j++) (void)GC_MALLOC(64);
    }
    return ran + frame[0];
}
static void jumped_out_of_a_finalizer(void)
{
    make_finalized(30);
    jumps = 1;
    if (setjmp(back) == 0)
        for (int k = 0; k < 10; k++) GC_gcollect();
    CHECK(ran == 1 && jumps == 0);
    CHECK(runs_others_below(50) >= 20);
}

/* While there is one thread: its finalizers are called behind it, and others work that it makes then. */
static void *jump_back(void *data)
{
    (void)data;
    longjmp(back, 1);
}
static void *ask_for_many(void *data)
{
    for (int k = 0; k < 1000; k++) (void)GC_MALLOC(100);
    GC_gcollect();
    return data;
}
static int asks_in_a_thread(void)
{
    pthread_t thread;
    return pthread_create(&thread, NULL, ask_for_many, NULL) == 0 && pthread_join(thread, NULL) == 0;
}
static int jumped_out_of_the_lock(void)
{
    if (setjmp(back) == 0) GC_call_with_alloc_lock(jump_back, NULL);
    ran = 0;
    make_finalized(30);
    for (int k = 0; k < 3; k++) GC_gcollect();
    return ran > 0 && asks_in_a_thread() ? 0 : 1;
}

#ifndef OTHER
static void *go(void *data) { pthread_exit(data); }
static void *go_with_the_lock(void *data) { return GC_call_with_alloc_lock(go, data); }
static int ended_under_the_lock(void)
{
    pthread_t thread;
    if (pthread_create(&thread, NULL, go_with_the_lock, NULL) != 0 || pthread_join(thread, NULL) != 0) return 2;
    return asks_in_a_thread() ? 0 : 1;
}
#endif

int main(void)
{
    pid_t watcher = watch(600);
    GC_INIT();
    if (getenv("INCREMENTAL")) GC_enable_incremental();
    CHECK(ends_well(jumped_out_of_the_lock, 60));
    jumped_out_of_a_finalizer();
#ifndef OTHER
    CHECK(ends_well(ended_under_the_lock, 60));
    cancelled_while_blocked(NULL);
    cancelled_while_blocked(&stage);
    destroyed_again_and_again();
    CHECK(ends_well(is_cancelled_while_it_writes, 180));
#endif
    kill(watcher, SIGKILL);
    return check_ends();
}
