/* walks CALL PAGES: one call of the heap for C on a heap of so many pages, whose instructions bench/walks counts. `begin`, `finish` and
 * `sweep` come to a heap with one object; `full` is a request for a page where each page has an object; `retrace` comes behind a store
 * to the last page while a cycle is marking. */
#include "mpheap.h"
#include <stdlib.h>
#include <string.h>

static mpheap heap = MPHEAP_CLOSED;
static uint8_t slot;

static void done(uint32_t status) {
    if (status != MPHEAP_OK) abort();
}

int main(int count, char **words) {
    uint32_t pages;
    uint64_t number;
    if (count != 3) return 2;
    pages = (uint32_t)atol(words[2]);
    done(mpheap_open(pages, &heap));
    done(mpheap_attach(&heap, &slot));
    done(mpheap_alloc(&heap, slot, 1, MPHEAP_PAGE_WORDS));
    if (strcmp(words[1], "begin") == 0) {
        done(mpheap_begin(&heap));
    } else if (strcmp(words[1], "finish") == 0) {
        done(mpheap_begin(&heap));
        done(mpheap_finish(&heap, &number));
    } else if (strcmp(words[1], "sweep") == 0) {
        done(mpheap_sweep(&heap, &number));
    } else {
        for (uint32_t page = 1; page < pages; page++) done(mpheap_alloc(&heap, slot, 2, MPHEAP_PAGE_WORDS));
        if (strcmp(words[1], "full") == 0) {
            return mpheap_alloc_base(&heap, slot, 3, MPHEAP_PAGE_WORDS, &number) == MPHEAP_FULL ? 0 : 1;
        }
        done(mpheap_begin(&heap));
        done(mpheap_store(&heap, slot, 2, 0, 1));
        done(mpheap_retrace(&heap, &number));
    }
    return 0;
}
