/* A heap whose words stand at their own addresses: its addresses are pointers at every number of pages, there is one such heap
 * at a time, and a range that is taken is a status. */
#define _GNU_SOURCE
#include "check.h"
#include "mpheap.h"
#include <sys/mman.h>

static uint64_t *at(uint64_t address) {
    return (uint64_t *)(uintptr_t)address;
}

/* What is stored is read by a pointer, and what is written by one is loaded, in each page. */
static void words_stand_at_their_addresses(uint32_t pages) {
    mpheap heap = MPHEAP_CLOSED;
    uint8_t me = 9;
    uint64_t base = 0, word = 0, page;
    IS(mpheap_open_mapped(pages, &heap), MPHEAP_OK);
    IS(mpheap_free_pages(&heap), pages);
    IS(mpheap_attach(&heap, &me), MPHEAP_OK);
    IS(me, 0);
    for (page = 0; page < pages; page++) {
        IS(mpheap_alloc_base(&heap, me, 0, MPHEAP_PAGE_WORDS, &base), MPHEAP_OK);
        IS(mpheap_set(&heap, me, 1, page + 7), MPHEAP_OK);
        IS(mpheap_store(&heap, me, 0, 511, 1), MPHEAP_OK);
        IS(at(base)[511], page + 7);
        at(base)[510] = page + 8;
        IS(mpheap_load(&heap, me, 2, 0, 510, &word), MPHEAP_OK);
        IS(word, page + 8);
    }
    mpheap_close(&heap);
}

static void a_second_one_says_so(void) {
    mpheap heap = MPHEAP_CLOSED, second = MPHEAP_CLOSED;
    IS(mpheap_open_mapped(4, &heap), MPHEAP_OK);
    IS(mpheap_open_mapped(4, &second), MPHEAP_SECOND);
    IS(second.core == NULL, 1);
    /* Limits that no heap has come first. */
    IS(mpheap_open_mapped(0, &second), MPHEAP_BAD_PAGES);
    IS(mpheap_open_mapped(MPHEAP_MAX_PAGES + 1, &second), MPHEAP_BAD_PAGES);
    IS(mpheap_open_mapped_with(MPHEAP_MOST_PAGES + 1, 2, &second), MPHEAP_BAD_PAGES);
    IS(mpheap_open_mapped_with(4, (uint64_t)MPHEAP_MOST_REQUEST_WORDS + 1, &second), MPHEAP_BAD_PAGES);
    IS(mpheap_open_mapped_with(MPHEAP_MOST_PAGES, MPHEAP_MOST_REQUEST_WORDS, &second), MPHEAP_SECOND);
    IS(second.core == NULL, 1);
    IS(mpheap_open(4, &second), MPHEAP_OK);
    mpheap_close(&second);
    mpheap_close(&heap);
    IS(mpheap_open_mapped(4, &second), MPHEAP_OK);
    mpheap_close(&second);
}

static void bad_pages_map_nothing(void) {
    mpheap heap = MPHEAP_CLOSED;
    IS(mpheap_open_mapped(0, &heap), MPHEAP_BAD_PAGES);
    IS(mpheap_open_mapped(MPHEAP_MAX_PAGES + 1, &heap), MPHEAP_BAD_PAGES);
    IS(mpheap_open_mapped(UINT32_MAX, &heap), MPHEAP_BAD_PAGES);
    IS(heap.core == NULL, 1);
}

static void a_range_is_taken(void) {
    mpheap heap = MPHEAP_CLOSED;
    void *wanted = (void *)(uintptr_t)(MPHEAP_FIRST_ADDRESS + 3 * MPHEAP_PAGE_BYTES);
    void *taken = mmap(wanted, MPHEAP_PAGE_BYTES, PROT_READ | PROT_WRITE, MAP_PRIVATE | MAP_ANONYMOUS, -1, 0);
    IS(taken == wanted, 1);
    if (taken != wanted) return;
    *(uint64_t *)taken = 77;
    IS(mpheap_open_mapped(4, &heap), MPHEAP_RANGE_TAKEN);
    IS(heap.core == NULL, 1);
    IS(*(uint64_t *)taken, 77);
    IS(mpheap_open_mapped(3, &heap), MPHEAP_OK);
    mpheap_close(&heap);
    IS(*(uint64_t *)taken, 77);
    munmap(taken, MPHEAP_PAGE_BYTES);
    IS(mpheap_open_mapped(4, &heap), MPHEAP_OK);
    mpheap_close(&heap);
}

/* Telling a range makes the pages of its bytes dirty, and no other, in both phases; the beginning of a cycle cleans all. */
static void ranges_are_told(void) {
    mpheap heap = MPHEAP_CLOSED;
    const uint64_t first = MPHEAP_FIRST_ADDRESS, page = MPHEAP_PAGE_BYTES;
    uint64_t count = 0;
    IS(mpheap_open_mapped(16, &heap), MPHEAP_OK);
    mpheap_written_range(&heap, first, 4 * page);
    IS(mpheap_dirty_pages(&heap), 4);
    mpheap_written_all(&heap, 16);
    IS(mpheap_dirty_pages(&heap), 16);
    IS(mpheap_begin(&heap), MPHEAP_OK);
    IS(mpheap_dirty_pages(&heap), 0);
    mpheap_written_range(&heap, first + 8, 0);
    IS(mpheap_dirty_pages(&heap), 0);
    mpheap_written_range(&heap, first + 8, 8);
    IS(mpheap_dirty_pages(&heap), 1);
    mpheap_written_range(&heap, first + 3 * page - 8, 8);
    IS(mpheap_dirty_pages(&heap), 2);
    mpheap_written_range(&heap, first + 5 * page - 8, 16);
    IS(mpheap_dirty_pages(&heap), 4);
    mpheap_written_range(&heap, first + 8 * page + 8, 3 * page);
    IS(mpheap_dirty_pages(&heap), 8);
    mpheap_written(&heap, first - 1);
    mpheap_written(&heap, first + 16 * page);
    mpheap_written(&heap, UINT64_MAX);
    mpheap_written(&heap, 0);
    IS(mpheap_dirty_pages(&heap), 8);
    IS(mpheap_finish(&heap, &count), MPHEAP_OK);
    IS(mpheap_dirty_pages(&heap), 0);
    mpheap_close(&heap);
}

/* What is told of a write stands beside nothing else: an address outside of the heap's is ignored by the barrier too. */
static void others_are_ignored(void) {
    static struct { uint64_t before; mpheap_told told; uint64_t after; } kept;
    mpheap heap = MPHEAP_CLOSED;
    uint64_t count = 0;
    static uint64_t outside;
    uint64_t *const first = (uint64_t *)(uintptr_t)MPHEAP_FIRST_ADDRESS;
    mpheap_tells_anew(&kept.told);
    IS(mpheap_open_mapped(MPHEAP_MAX_PAGES, &heap), MPHEAP_OK);
    IS(mpheap_begin(&heap), MPHEAP_OK);
    mpheap_before_write(&heap, &kept.told, first - 1);
    mpheap_before_write(&heap, &kept.told, first + MPHEAP_MAX_PAGES * MPHEAP_PAGE_WORDS);
    mpheap_before_write(&heap, &kept.told, NULL);
    mpheap_before_write(&heap, &kept.told, (void *)UINTPTR_MAX);
    mpheap_write(&heap, &kept.told, &outside, 5);
    IS(mpheap_dirty_pages(&heap), 0);
    IS(kept.before, 0);
    IS(kept.after, 0);
    IS(outside, 5);
    mpheap_before_write(&heap, &kept.told, first + MPHEAP_MAX_PAGES * MPHEAP_PAGE_WORDS - 1);
    IS(mpheap_dirty_pages(&heap), 1);
    IS(mpheap_retrace(&heap, &count), MPHEAP_OK);
    mpheap_before_write(&heap, &kept.told, first + MPHEAP_MAX_PAGES * MPHEAP_PAGE_WORDS - 1);
    IS(mpheap_dirty_pages(&heap), 0);
    IS(kept.before, 0);
    IS(kept.after, 0);
    mpheap_close(&heap);
}

int main(void) {
    for (uint32_t pages = 1; pages <= 40; pages++) words_stand_at_their_addresses(pages);
    words_stand_at_their_addresses(MPHEAP_MAX_PAGES);
    a_second_one_says_so();
    bad_pages_map_nothing();
    a_range_is_taken();
    ranges_are_told();
    others_are_ignored();
    return counts("mapped");
}
