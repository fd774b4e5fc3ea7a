/* Heaps with limits of their own: which limits are refused, requests as large as the heap, pages past those of a heap without
 * them, that pages that were never used take no memory, and that words of free pages may change. */
#define _GNU_SOURCE
#include "check.h"
#include "mpheap.h"
#include <stdio.h>
#include <string.h>

enum { LARGE = 262144, MANY = MPHEAP_MAX_PAGES + 1, UNTOUCHED = 77 };

typedef uint32_t opens(uint32_t pages, uint64_t request_words, mpheap *heap);

static uint64_t *at(uint64_t address) {
    return (uint64_t *)(uintptr_t)address;
}

static void limits_are_refused(opens *open) {
    mpheap heap = MPHEAP_CLOSED;
    IS(open(0, 2, &heap), MPHEAP_BAD_PAGES);
    IS(open(MPHEAP_MOST_PAGES + 1, 2, &heap), MPHEAP_BAD_PAGES);
    IS(open(UINT32_MAX, 2, &heap), MPHEAP_BAD_PAGES);
    IS(open(4, (uint64_t)MPHEAP_MOST_REQUEST_WORDS + 1, &heap), MPHEAP_BAD_PAGES);
    IS(open(4, UINT64_MAX, &heap), MPHEAP_BAD_PAGES);
    IS(heap.core == NULL, 1);
}

/* A request past the limit has a bad size, however much room there is; one within it is granted. */
static void requests_have_a_limit(opens *open) {
    mpheap heap = MPHEAP_CLOSED;
    uint8_t me = UNTOUCHED;
    IS(open(4, 700, &heap), MPHEAP_OK);
    IS(mpheap_attach(&heap, &me), MPHEAP_OK);
    IS(mpheap_alloc(&heap, me, 0, 701), MPHEAP_BAD_SIZE);
    IS(mpheap_alloc(&heap, me, 0, MPHEAP_MAX_REQUEST_WORDS), MPHEAP_BAD_SIZE);
    IS(mpheap_alloc(&heap, me, 0, 700), MPHEAP_OK);
    IS(mpheap_free_pages(&heap), 2);
    mpheap_close(&heap);
    IS(open(4, 0, &heap), MPHEAP_OK);
    IS(mpheap_attach(&heap, &me), MPHEAP_OK);
    IS(mpheap_alloc(&heap, me, 0, 1), MPHEAP_BAD_SIZE);
    mpheap_close(&heap);
}

/* One object has all words of the heap; one word more has no room, and past the limit a bad size. */
static void a_request_is_the_heap(opens *open) {
    const uint64_t words = (uint64_t)MANY * MPHEAP_PAGE_WORDS;
    mpheap heap = MPHEAP_CLOSED;
    uint8_t me = UNTOUCHED;
    uint64_t base = 0, word = UNTOUCHED;
    IS(open(MANY, MPHEAP_MOST_REQUEST_WORDS, &heap), MPHEAP_OK);
    IS(mpheap_attach(&heap, &me), MPHEAP_OK);
    IS(mpheap_alloc(&heap, me, 0, words + 1), MPHEAP_FULL);
    IS(mpheap_alloc(&heap, me, 0, MPHEAP_MOST_REQUEST_WORDS), MPHEAP_FULL);
    IS(mpheap_alloc(&heap, me, 0, (uint64_t)MPHEAP_MOST_REQUEST_WORDS + 1), MPHEAP_BAD_SIZE);
    IS(mpheap_alloc_base(&heap, me, 0, words, &base), MPHEAP_OK);
    IS(base, MPHEAP_FIRST_ADDRESS);
    IS(mpheap_free_pages(&heap), 0);
    IS(mpheap_load(&heap, me, 1, 0, words - 1, &word), MPHEAP_OK);
    IS(word, 0);
    IS(mpheap_store(&heap, me, 0, words - 1, 0), MPHEAP_OK);
    IS(mpheap_alloc(&heap, me, 2, 1), MPHEAP_FULL);
    IS(mpheap_load(&heap, me, 1, 0, words - 1, &word), MPHEAP_OK);
    IS(word, base);
    IS(mpheap_set(&heap, me, 0, 0), MPHEAP_OK);
    IS(mpheap_set(&heap, me, 1, 0), MPHEAP_OK);
    IS(mpheap_collect(&heap, &word), MPHEAP_OK);
    IS(word, 1);
    IS(mpheap_free_pages(&heap), MANY);
    mpheap_close(&heap);
}

/* What lies on the last page is marked by a word of the first, and told where it is written by a pointer. */
static void pages_past_the_others(void) {
    mpheap heap = MPHEAP_CLOSED;
    static mpheap_told told;
    uint8_t me = UNTOUCHED;
    uint64_t first = 0, rest = 0, last = 0, count = 0;
    IS(mpheap_open_mapped_with(MANY, MPHEAP_MOST_REQUEST_WORDS, &heap), MPHEAP_OK);
    IS(mpheap_attach(&heap, &me), MPHEAP_OK);
    IS(mpheap_alloc_base(&heap, me, 0, 2, &first), MPHEAP_OK);
    IS(mpheap_alloc_pointer_free_base(&heap, me, 1, (uint64_t)(MANY - 2) * MPHEAP_PAGE_WORDS, &rest), MPHEAP_OK);
    IS(mpheap_alloc_base(&heap, me, 2, 300, &last), MPHEAP_OK);
    IS(last, MPHEAP_FIRST_ADDRESS + (uint64_t)(MANY - 1) * MPHEAP_PAGE_BYTES);
    IS(mpheap_store(&heap, me, 0, 0, 2), MPHEAP_OK);
    IS(mpheap_set(&heap, me, 2, 0), MPHEAP_OK);
    IS(mpheap_collect(&heap, &count), MPHEAP_OK);
    IS(count, 0);
    mpheap_tells_anew(&told);
    IS(mpheap_begin(&heap), MPHEAP_OK);
    mpheap_write(&heap, &told, at(last), rest);
    mpheap_write(&heap, &told, at(last) + 299, first);
    IS(mpheap_dirty_pages(&heap), 1);
    IS(mpheap_set(&heap, me, 1, 0), MPHEAP_OK);
    IS(mpheap_finish(&heap, &count), MPHEAP_OK);
    IS(count, 0);
    IS(mpheap_set(&heap, me, 0, 0), MPHEAP_OK);
    IS(mpheap_collect(&heap, &count), MPHEAP_OK);
    IS(count, 3);
    mpheap_close(&heap);
}

/* A page of a large heap is told once until all are told anew, however often that was, and whichever page shares its place. One is told as
 * seldom as the number of a turn comes again. */
static void pages_are_told_once(void) {
    enum { ROUNDS = 9000, SELDOM = 4095 };
    const uint64_t low = MPHEAP_FIRST_ADDRESS, high = low + MPHEAP_TOLD_PAGES * (uint64_t)MPHEAP_PAGE_BYTES;
    const uint64_t seldom = low + 7 * MPHEAP_PAGE_BYTES;
    mpheap heap = MPHEAP_CLOSED;
    static mpheap_told told = MPHEAP_TOLD;
    uint64_t count = 0;
    uint32_t tellings = 0, again = 0;
    IS(mpheap_open_mapped_with(MANY, MPHEAP_MOST_REQUEST_WORDS, &heap), MPHEAP_OK);
    IS(mpheap_begin(&heap), MPHEAP_OK);
    for (int round = 0; round < ROUNDS; round++) {
        uint64_t one = round % SELDOM == 0 ? seldom : round / 2 % 2 ? high : low;
        mpheap_tells_anew(&told);
        mpheap_before_write(&heap, &told, at(one));
        tellings += mpheap_dirty_pages(&heap);
        mpheap_retrace(&heap, &count);
        mpheap_before_write(&heap, &told, at(one) + 511);
        again += mpheap_dirty_pages(&heap);
    }
    IS(tellings, ROUNDS);
    IS(again, 0);
    mpheap_tells_anew(&told);
    mpheap_before_write(&heap, &told, at(low));
    mpheap_before_write(&heap, &told, at(high));
    IS(mpheap_dirty_pages(&heap), 2);
    IS(mpheap_retrace(&heap, &count), MPHEAP_OK);
    mpheap_before_write(&heap, &told, at(low));
    IS(mpheap_dirty_pages(&heap), 2);
    mpheap_close(&heap);
}

/* Bytes of this process that are in memory. */
static uint64_t resident(void) {
    unsigned long all = 0, in_memory = 0;
    FILE *file = fopen("/proc/self/statm", "r");
    if (file == NULL) return 0;
    if (fscanf(file, "%lu %lu", &all, &in_memory) != 2) in_memory = 0;
    fclose(file);
    return (uint64_t)in_memory * 4096;
}

/* A heap of 1 GiB takes little until it is used. It comes before the others: what calloc has from a heap that was closed it has to
 * clear. (A sanitizer keeps bytes of its own for each that is asked for.) */
static void unused_pages_are_not_touched(void) {
    mpheap heap = MPHEAP_CLOSED;
    uint8_t me = UNTOUCHED;
    uint64_t before = resident(), count = 0;
    IS(mpheap_open_mapped_with(LARGE, MPHEAP_MOST_REQUEST_WORDS, &heap), MPHEAP_OK);
    IS(mpheap_free_pages(&heap), LARGE);
    IS(mpheap_attach(&heap, &me), MPHEAP_OK);
    IS(mpheap_alloc(&heap, me, 0, 2), MPHEAP_OK);
    IS(mpheap_collect(&heap, &count), MPHEAP_OK);
#ifndef __SANITIZE_ADDRESS__
    IS(resident() - before < 4 << 20, 1);
#endif
    (void)before;
    mpheap_close(&heap);
}

/* Free pages are told as runs, and whatever is written on them, what is allocated there is 0. */
static void words_of_free_pages_change(void) {
    mpheap heap = MPHEAP_CLOSED;
    uint8_t me = UNTOUCHED;
    uint64_t base = 0, count = 0, low = MPHEAP_FIRST_ADDRESS + MPHEAP_PAGE_BYTES;
    uint32_t first = UNTOUCHED, pages = UNTOUCHED;
    IS(mpheap_open_mapped(64, &heap), MPHEAP_OK);
    IS(mpheap_used_pages(&heap), 1); /* the open tried whether its words are there */
    IS(mpheap_attach(&heap, &me), MPHEAP_OK);
    IS(mpheap_alloc(&heap, me, 0, 2), MPHEAP_OK);
    IS(mpheap_alloc(&heap, me, 1, 10 * MPHEAP_PAGE_WORDS), MPHEAP_OK);
    IS(mpheap_alloc(&heap, me, 2, 300), MPHEAP_OK);
    IS(mpheap_set(&heap, me, 1, 0), MPHEAP_OK);
    IS(mpheap_collect(&heap, &count), MPHEAP_OK);
    IS(mpheap_used_pages(&heap), 12);
    IS(mpheap_free_run(&heap, 64, &first, &pages), 0);
    IS(mpheap_free_run(&heap, UINT32_MAX, &first, &pages), 0);
    IS(first, UNTOUCHED);
    IS(pages, UNTOUCHED);
    IS(mpheap_free_run(&heap, 11, &first, &pages), 1);
    IS(first, 12);
    IS(pages, 52);
    IS(mpheap_free_run(&heap, 3, &first, &pages), 1);
    IS(first, 3);
    IS(pages, 8);
    IS(mpheap_free_run(&heap, 0, &first, &pages), 1);
    IS(first, 1);
    IS(pages, 10);
    memset(at(low), 0xa5, (size_t)pages * MPHEAP_PAGE_BYTES);
    for (int k = 0; k < 300; k++) {
        IS(mpheap_alloc_base(&heap, me, 1, 4, &base), MPHEAP_OK);
        IS(at(base)[0] | at(base)[1] | at(base)[2] | at(base)[3], 0);
    }
    IS(base >= low && base < low + (uint64_t)pages * MPHEAP_PAGE_BYTES, 1);
    IS(mpheap_collect(&heap, &count), MPHEAP_OK);
    IS(count, 299);
    IS(mpheap_alloc_base(&heap, me, 1, 6 * MPHEAP_PAGE_WORDS, &base), MPHEAP_OK);
    for (int k = 0; k < 6 * MPHEAP_PAGE_WORDS; k++) count += at(base)[k];
    IS(count, 299);
    mpheap_close(&heap);
}

int main(void) {
    unused_pages_are_not_touched();
    limits_are_refused(mpheap_open_with);
    limits_are_refused(mpheap_open_mapped_with);
    requests_have_a_limit(mpheap_open_with);
    requests_have_a_limit(mpheap_open_mapped_with);
    a_request_is_the_heap(mpheap_open_with);
    a_request_is_the_heap(mpheap_open_mapped_with);
    pages_past_the_others();
    pages_are_told_once();
    words_of_free_pages_change();
    return counts("limits");
}
