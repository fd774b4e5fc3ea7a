/* Threads of C share the marking of a cycle: exactly the objects that are reached stay, with each number of helpers and each bound on what one
 * reads, as by one thread; and each refusal, with what stayed. Reached is what a walk over the program's own pointers finds. */
#include "check.h"
#include "mpheap.h"
#include <pthread.h>
#include <stdlib.h>
#include <string.h>

enum { PAGES = 4096, OBJECTS = 20000, MOST_WORDS = 60, POINTERS = 3, ROOTS = 40, IN = 1, TOP = 0 };

static mpheap heap = MPHEAP_CLOSED;
static uint8_t me;
static mpheap_shares shares[MPHEAP_MAX_HELPERS];
static uint64_t most, read_by[MPHEAP_MAX_HELPERS];
static uint64_t *objects[OBJECTS], sizes[OBJECTS], state;
static bool is_reached[OBJECTS];

static uint64_t draw(uint64_t below) {
    state = state * UINT64_C(6364136223846793005) + UINT64_C(1442695040888963407);
    return (state >> 33) % below;
}

/* An object, whose first words point at earlier ones, and the next one is its number. Nothing is collected before there are roots. */
static void make(uint64_t k) {
    uint64_t base = 0;
    sizes[k] = POINTERS + 1 + draw(MOST_WORDS);
    if (mpheap_alloc_base(&heap, me, TOP, sizes[k], &base) != MPHEAP_OK) IS(base, UINT64_MAX);
    objects[k] = (uint64_t *)(uintptr_t)base;
    objects[k][POINTERS] = k;
    for (uint64_t i = 0; k > 0 && i < POINTERS; i++)
        objects[k][i] = (uint64_t)(uintptr_t)objects[draw(2) ? k - 1 : draw(k)];
}

static void reach(uint64_t k) {
    static uint64_t waiting[OBJECTS];
    uint64_t count = 0;
    waiting[count++] = k;
    is_reached[k] = true;
    while (count > 0) {
        uint64_t *object = objects[waiting[--count]];
        for (uint64_t i = 0; i < POINTERS; i++) {
            uint64_t *next = (uint64_t *)(uintptr_t)object[i];
            if (next == NULL || is_reached[next[POINTERS]]) continue;
            is_reached[next[POINTERS]] = true;
            waiting[count++] = next[POINTERS];
        }
    }
}

/* Some lead to all that is reached: half of the pointers are cut first, so that not all is. */
static void choose_roots(void) {
    memset(is_reached, 0, sizeof is_reached);
    for (uint64_t k = 0; k < OBJECTS; k++)
        if (draw(2)) memset(objects[k], 0, POINTERS * sizeof **objects);
    IS(mpheap_detach(&heap, me), MPHEAP_OK);
    IS(mpheap_attach(&heap, &me), MPHEAP_OK);
    for (int i = 0; i < ROOTS; i++) {
        uint64_t k = draw(OBJECTS);
        IS(mpheap_set(&heap, me, IN, (uint64_t)(uintptr_t)objects[k]), MPHEAP_OK);
        IS(mpheap_push(&heap, me, IN), MPHEAP_OK);
        IS(mpheap_set(&heap, me, IN, 0), MPHEAP_OK);
        reach(k);
    }
}

static void *help(void *place) {
    mpheap_shares *some = place;
    read_by[some - shares] = mpheap_help(some, most);
    return NULL;
}

/* The first share stays with this thread. Answers how many words all read. */
static uint64_t one_round(uint8_t helpers) {
    pthread_t threads[MPHEAP_MAX_HELPERS];
    uint64_t read = 0;
    IS(mpheap_share(&heap, helpers, &shares[0]), MPHEAP_OK);
    IS(heap.core == NULL, 1);
    for (int which = helpers - 1; which > 0; which--) IS(mpheap_hire(&shares[0], &shares[which]), MPHEAP_OK);
    for (int which = 1; which < helpers; which++) IS(pthread_create(&threads[which], NULL, help, &shares[which]), 0);
    (void)help(&shares[0]);
    for (int which = 1; which < helpers; which++) IS(pthread_join(threads[which], NULL), 0);
    for (int which = 1; which < helpers; which++) IS(mpheap_join(&shares[0], &shares[which]), MPHEAP_OK);
    IS(mpheap_gather(&shares[0], &heap), MPHEAP_OK);
    for (int which = 0; which < helpers; which++) read += read_by[which];
    return read;
}

static void opens_full(uint64_t seed) {
    IS(mpheap_open_mapped(PAGES, &heap), MPHEAP_OK);
    IS(mpheap_attach(&heap, &me), MPHEAP_OK);
    state = seed;
    for (uint64_t k = 0; k < OBJECTS; k++) make(k);
    choose_roots();
}

/* A cycle of so many rounds; each finds more to read than the last one left, or nothing. */
static void keeps_what_is_reached(uint8_t helpers, uint64_t bound, int rounds) {
    uint64_t count = 0, found = 0, words = 0, gone = 0;
    opens_full(helpers * 1000 + bound % 999);
    most = bound;
    IS(mpheap_begin(&heap), MPHEAP_OK);
    IS(mpheap_roots(&heap), MPHEAP_OK);
    for (int k = 0; k < rounds; k++)
        if (one_round(helpers) == 0 && bound != 0) break;
    IS(mpheap_finish(&heap, &count), MPHEAP_OK);
    for (uint64_t k = 0; k < OBJECTS; k++) {
        bool is_kept = mpheap_kept_at(&heap, (uint64_t)(uintptr_t)objects[k], &found, &words) == MPHEAP_OK;
        if (is_kept != is_reached[k]) IS(is_kept, is_reached[k]);
        if (is_kept && objects[k][POINTERS] != k) IS(objects[k][POINTERS], k);
        gone += !is_reached[k];
    }
    IS(count, gone);
    mpheap_close(&heap);
}

static void refuses_what_does_not_fit(void) {
    mpheap other = MPHEAP_CLOSED;
    mpheap_shares *all = &shares[0], *one = &shares[1], *two = &shares[2];
    IS(mpheap_open_mapped(8, &heap), MPHEAP_OK);
    IS(mpheap_share(&heap, 2, all), MPHEAP_WRONG_PHASE);
    IS(mpheap_begin(&heap), MPHEAP_OK);
    IS(mpheap_share(&heap, 0, all), MPHEAP_BAD_NUMBER);
    IS(mpheap_share(&heap, MPHEAP_MAX_HELPERS + 1, all), MPHEAP_BAD_NUMBER);
    IS(heap.core != NULL, 1);
    IS(mpheap_is_marking(&heap), 1);
    IS(mpheap_hire(all, one), MPHEAP_BAD_NUMBER);
    IS(mpheap_join(all, one), MPHEAP_BAD_NUMBER);
    IS(mpheap_help(all, 1), 0);
    IS(mpheap_share(&heap, 3, all), MPHEAP_OK);
    IS(mpheap_open(8, &other), MPHEAP_OK);
    IS(mpheap_begin(&other), MPHEAP_OK);
    IS(mpheap_share(&other, 2, all), MPHEAP_BAD_NUMBER);
    IS(other.core != NULL, 1);
    mpheap_close(&other);
    IS(mpheap_hire(all, one), MPHEAP_OK);
    IS(mpheap_hire(all, one), MPHEAP_BAD_NUMBER);
    IS(mpheap_hire(all, two), MPHEAP_OK);
    IS(mpheap_gather(all, &heap), MPHEAP_BAD_NUMBER);
    IS(heap.core == NULL, 1);
    IS(mpheap_join(all, one), MPHEAP_BAD_NUMBER);
    IS(mpheap_join(all, two), MPHEAP_OK);
    IS(mpheap_join(all, two), MPHEAP_BAD_NUMBER);
    IS(mpheap_gather(all, &heap), MPHEAP_BAD_NUMBER);
    IS(mpheap_join(all, one), MPHEAP_OK);
    IS(mpheap_gather(all, &heap), MPHEAP_OK);
    IS(mpheap_is_marking(&heap), 1);
    mpheap_close(&heap);
}

/* What is closed with its shares takes the heap along. */
static void closes_with_its_heap(void) {
    IS(mpheap_open(8, &heap), MPHEAP_OK);
    IS(mpheap_begin(&heap), MPHEAP_OK);
    IS(mpheap_share(&heap, 2, &shares[0]), MPHEAP_OK);
    IS(mpheap_hire(&shares[0], &shares[1]), MPHEAP_OK);
    for (int which = 0; which < MPHEAP_MAX_HELPERS; which++) mpheap_shares_close(&shares[which]);
    IS(shares[0].at == NULL, 1);
}

int main(void) {
    for (int which = 0; which < MPHEAP_MAX_HELPERS; which++) IS(mpheap_shares_open(&shares[which]), MPHEAP_OK);
    refuses_what_does_not_fit();
    for (uint8_t helpers = 1; helpers <= MPHEAP_MAX_HELPERS; helpers++) keeps_what_is_reached(helpers, UINT64_MAX, 1);
    keeps_what_is_reached(4, 0, 3);
    keeps_what_is_reached(4, 100, 1000);
    keeps_what_is_reached(3, 5000, 50);
    keeps_what_is_reached(2, 5000, 1);
    closes_with_its_heap();
    return counts("shares");
}
