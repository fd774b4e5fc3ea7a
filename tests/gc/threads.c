/* Threads that make lists, change them, hand them to each other, and compare them with a shadow in malloc's memory.
 *
 *     threads COUNT SECONDS [SEED]
 *
 * A list's only root is a place of the thread's stack, of its thread-local data, of an object that a key alone names, of static data, the
 * argument of a thread that is being made, or what it answered. OTHER: over bdwgc, which doesn't read a thread's local data and keys. */
#define _GNU_SOURCE
#define GC_THREADS
#include <pthread.h>
#include <signal.h>
#include <stdint.h>
#include <stdio.h>
#include <stdlib.h>
#include <string.h>
#include <unistd.h>
#include "gc.h"
#include "drawn.h"
#include "lists.h"
#include "waits.h"

enum { LISTS = 6, SHARED = 8, KEPT = LISTS / 3 };

#ifdef OTHER
#define IS_KEY(k) 0
#define IS_LOCAL(k) 0
#else
#define IS_KEY(k) ((k) / KEPT == 2)
#define IS_LOCAL(k) ((k) / KEPT == 1)
#endif

static _Thread_local struct node *volatile local[KEPT];
static struct { pthread_mutex_t lock; struct node *volatile head; struct shadow *shadow; } shared[SHARED];
static pthread_key_t key;
static double until;
static _Atomic int is_over;
static _Atomic uint64_t operations;

static uint64_t next_random(uint64_t *state)
{
    *state ^= *state << 13;
    *state ^= *state >> 7;
    *state ^= *state << 17;
    return *state * 0x2545F4914F6CDD1Dull >> 20;
}

static void exchange(struct list *list, uint64_t which)
{
    struct shadow *shadow;
    struct node *head;
    which %= SHARED;
    take_lock(&shared[which].lock);
    head = shared[which].head;
    shared[which].head = *list->head;
    *list->head = head;
    shadow = shared[which].shadow;
    shared[which].shadow = list->shadow;
    list->shadow = shadow;
    pthread_mutex_unlock(&shared[which].lock);
}

static void drop(struct list *list)
{
    *list->head = NULL;
    list->shadow->length = 0;
}

/* A thread whose argument is the only pointer to a list, and whose answer is. */
static void *turn_around(void *data)
{
    struct node *head = data, *done = NULL;
    GC_malloc(40);
    while (head) {
        struct node *next = head->next;
        head->next = done;
        done = head;
        head = next;
    }
    return done;
}

static void hand_over(struct list *list)
{
    pthread_t thread;
    void *answer;
    struct node *head = *list->head;
    *list->head = NULL;
    if (pthread_create(&thread, NULL, turn_around, head) != 0) lost("no thread");
    head = NULL;
    for (int k = 0; k < 20; k++) GC_malloc(100);
    if (pthread_join(thread, &answer) != 0) lost("no join");
    *list->head = answer;
    reverse_shadow(list->shadow);
}

static void *rest(void *data)
{
    (void)data;
    usleep(2000);
    return NULL;
}

/* What comes once in a thousand steps or so, and changes no list. */
static void do_another_thing(uint64_t random)
{
    uint64_t often = random / 64 % 16, seldom = random / 64 % 64, hardly = random / 64 % 1024;
    switch (random % 64) {
    case 7: if (hardly == 0) GC_gcollect(); break;
    case 8: if (seldom == 0) memset(GC_malloc(5000), 7, 5000); break;
    case 9: if (hardly == 0) GC_do_blocking(rest, NULL); break;
    case 10: if (often == 0) *(uint64_t *)GC_malloc_atomic(3000) = 1; break;
    default: GC_free(memset(GC_malloc(48), 1, 48));
    }
}

static void step(struct list *list, uint64_t random, uint64_t value)
{
    switch (random % 64) {
    case 0: compare(*list->head, list->shadow); break;
    case 1: reverse(list); break;
    case 2: renew_end(list, value); break;
    case 3: case 4: exchange(list, value >> 8); break;
    case 5: if (random % 1024 < 64) drop(list); break;
    case 6: if (random % 8192 < 64) hand_over(list); break;
    case 7: case 8: case 9: case 10: case 11: do_another_thing(random); break;
    default:
        if (random % 2 == 0)
            pop(list);
        else
            push(list, value);
    }
}

static struct node *volatile *place_by_key(int k) { return (struct node *volatile *)pthread_getspecific(key) + k % KEPT; }

/* Of a list that stands at what a key names its place is known for a step alone. */
static void do_steps(struct list *lists, uint64_t *state)
{
    enum { STEPS = 200 };
    for (int k = 0; k < STEPS; k++) {
        uint64_t random = next_random(state), value = next_random(state);
        int which = (int)(value % LISTS);
        if (IS_KEY(which)) lists[which].head = place_by_key(which);
        step(&lists[which], random, value);
        if (IS_KEY(which)) lists[which].head = NULL;
    }
    operations += STEPS;
}

static void *work(void *data)
{
    uint64_t state = (uint64_t)(uintptr_t)data * 0x9E3779B97F4A7C15ull + 1;
    struct node *volatile on_stack[LISTS] = { NULL };
    struct list lists[LISTS];
    pthread_setspecific(key, GC_malloc(KEPT * sizeof *on_stack));
    for (int k = 0; k < LISTS; k++) {
        lists[k].shadow = calloc(1, sizeof *lists[k].shadow);
        lists[k].head = IS_KEY(k) ? NULL : IS_LOCAL(k) ? &local[k % KEPT] : &on_stack[k];
    }
    while (!is_over) {
        do_steps(lists, &state);
        if (now() > until) is_over = 1;
    }
    for (int k = 0; k < LISTS; k++) compare(IS_KEY(k) ? *place_by_key(k) : *lists[k].head, lists[k].shadow);
    return NULL;
}

int main(int count, char **words)
{
    int threads = count > 1 ? atoi(words[1]) : 4;
    pthread_t all[64];
    GC_INIT();
    if (getenv("INCREMENTAL")) GC_enable_incremental();
    until = now() + (count > 2 ? atof(words[2]) : 5);
    for (int k = 0; k < 40; k++) pthread_key_create(&key, NULL);  // the first 32 lie in the thread's own block
    for (int k = 0; k < SHARED; k++) {
        pthread_mutex_init(&shared[k].lock, NULL);
        shared[k].shadow = calloc(1, sizeof *shared[k].shadow);
    }
    for (int k = 0; k < threads; k++)
        if (pthread_create(&all[k], NULL, work, (void *)(uintptr_t)(k + 1 + 100 * (count > 3 ? atoi(words[3]) : 0))) != 0) lost("no thread");
    work((void *)(uintptr_t)99);  // the first thread's local data lies elsewhere
    for (int k = 0; k < threads; k++) pthread_join(all[k], NULL);
    for (int k = 0; k < SHARED; k++) compare(shared[k].head, shared[k].shadow);
    printf("%llu operations, %llu nodes, %llu compared, %lu collections\n", (unsigned long long)operations, (unsigned long long)made,
           (unsigned long long)compared, (unsigned long)GC_get_gc_no());
    return 0;
}
