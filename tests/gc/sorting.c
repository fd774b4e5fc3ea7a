/* Threads sort arrays whose elements alone name objects, while others collect: none is lost, equal elements stay in their order, and all sizes of
 * elements are sorted, also of few and of what isn't the heap's. */
#define _GNU_SOURCE
#define GC_THREADS
#include <pthread.h>
#include <stdint.h>
#include <time.h>
#include "gc.h"
#include "beside.h"
#include "check.h"
#include "watch.h"

enum { SORTING = 2, COLLECTING = 2, LONGEST = 4000, KEY = 500, RIGHT = 77 };
struct object { uint64_t key, place, right; };

/* An element of so many words has the object in its last one. */
static size_t words_of(const void *elements) { return *(const size_t *)elements; }
static struct object *object_of(const void *element, size_t words) { return ((struct object *const *)element)[words - 1]; }
static int by_key_of(const void *one, const void *other, void *words)
{
    uint64_t a = object_of(one, words_of(words))->key, b = object_of(other, words_of(words))->key;
    return a < b ? -1 : a > b;
}
static int by_key(const void *one, const void *other) { return by_key_of(one, other, &(size_t){ 1 }); }

static uint64_t next_random(uint64_t *random) { return (*random = *random * 6364136223846793005u + 1442695040888963407u) >> 33; }

static int are_sorted(void *const *elements, size_t count, size_t words)
{
    int answer = 1;
    for (size_t k = 0; k < count; k++) answer &= object_of(&elements[k * words], words)->right == RIGHT;
    for (size_t k = 1; k < count && answer; k++) {
        const struct object *one = object_of(&elements[(k - 1) * words], words), *other = object_of(&elements[k * words], words);
        answer = one->key < other->key || (one->key == other->key && one->place < other->place);
    }
    return answer;
}

/* New keys, and places as they are now. */
static void mix(void **elements, size_t count, size_t words, uint64_t *random)
{
    for (size_t k = 0; k < count; k++) {
        struct object *one = object_of(&elements[k * words], words);
        one->key = next_random(random) % KEY;
        one->place = k;
    }
}

static void **make(size_t count, size_t words)
{
    void **elements = GC_malloc(count * words * sizeof *elements);
    for (size_t k = 0; k < count; k++) {
        struct object *one = elements[k * words + words - 1] = GC_malloc(sizeof *one);
        one->right = RIGHT;
    }
    return elements;
}

/* However little of the processors it has, it sorts some times. */
static void *sort_often(void *data)
{
    enum { SOME = 12 };
    size_t words = (uintptr_t)data, sorts = 0;
    uint64_t random = words;
    int is_right = 1;
    void **elements = make(LONGEST, words);
    for (; (!is_over || sorts < SOME) && is_right; sorts++) {
        mix(elements, LONGEST, words, &random);
        if (words == 1)
            qsort(elements, LONGEST, sizeof *elements, by_key);
        else
            qsort_r(elements, LONGEST, words * sizeof *elements, by_key_of, &words);
        is_right = are_sorted(elements, LONGEST, words);
    }
    return is_right ? NULL : data;
}

/* What is collected is given out again, and written over. */
static _Atomic int are_sorted_often;
static void *collect_often(void *data)
{
    while (!are_sorted_often) {
        GC_gcollect();
        for (int k = 0; k < 5000; k++) ((struct object *)GC_malloc(sizeof(struct object)))->key = KEY;
    }
    return data;
}

static void each_length(void)
{
    uint64_t random = 1;
    int right = 1;
    for (size_t count = 0; count < 200; count++) {
        size_t words = count % 6 + 1;
        void **elements = make(count, words);
        mix(elements, count, words, &random);
        qsort_r(elements, count, words * sizeof *elements, by_key_of, &words);
        right &= are_sorted(elements, count, words);
    }
    CHECK(right);
}

#ifndef OTHER
/* Who has the lock, or is blocked, makes no request by it. */
static void **quiet;
static void *sort_quietly(void *asked)
{
    size_t before = GC_get_total_bytes();
    qsort(quiet, LONGEST, sizeof *quiet, by_key);
    *(size_t *)asked = GC_get_total_bytes() - before;
    return NULL;
}
static void no_requests(void *(*sorts)(void *(*)(void *), void *))
{
    uint64_t random = 1;
    size_t asked = 1;
    quiet = make(LONGEST, 1);
    mix(quiet, LONGEST, 1, &random);
    sorts(sort_quietly, &asked);
    CHECK(asked == 0 && are_sorted(quiet, LONGEST, 1));
    mix(quiet, LONGEST, 1, &random);
    sort_quietly(&asked);
    CHECK(asked >= LONGEST * sizeof *quiet && are_sorted(quiet, LONGEST, 1));
}
#endif

static int by_number(const void *one, const void *other) { return *(const int *)one - *(const int *)other; }
static void of_numbers(void)
{
    static int numbers[LONGEST];
    int right = 1;
    for (int k = 0; k < LONGEST; k++) numbers[k] = k * 7919 % LONGEST;
    qsort(numbers, LONGEST, sizeof *numbers, by_number);
    for (int k = 0; k < LONGEST; k++) right &= numbers[k] == k;
    CHECK(right);
}

int main(void)
{
    pthread_t all[SORTING + COLLECTING];
    pid_t watcher = watch(300);
    GC_INIT();
    each_length();
    for (uintptr_t k = 0; k < SORTING; k++) GC_pthread_create(&all[k], NULL, sort_often, (void *)(5 * k + 1));
    for (int k = SORTING; k < SORTING + COLLECTING; k++) GC_pthread_create(&all[k], NULL, collect_often, NULL);
    rest(3);
    is_over = 1;
    for (int k = 0; k < SORTING + COLLECTING; k++) {
        void *answer = all;
        GC_pthread_join(all[k], &answer);
        CHECK(answer == NULL);
        are_sorted_often = k >= SORTING - 1;
    }
    each_length();
    of_numbers();
#ifndef OTHER
    no_requests(GC_call_with_alloc_lock);
    no_requests(GC_do_blocking);
#endif
    kill(watcher, SIGKILL);
    return check_ends();
}
