/* Each request for memory of each open, refused in turn: the status, nothing is left, and a later open succeeds. */
#define ASKS
#include "refused.h"
#include "check.h"
#include "mpheap.h"
#include <errno.h>

static long left;  /* so many requests are still granted */
static long live;  /* what was granted and not given back */

static bool grants(void) {
    if (left == 0) return false;
    left--;
    return true;
}

void *asked_malloc(size_t bytes) {
    if (!grants()) return NULL;
    live++;
    return malloc(bytes);
}

void *asked_calloc(size_t count, size_t bytes) {
    if (!grants()) return NULL;
    live++;
    return calloc(count, bytes);
}

void *asked_realloc(void *at, size_t bytes) {
    if (!grants()) return NULL;
    if (at == NULL) live++;
    return realloc(at, bytes);
}

void asked_free(void *at) {
    if (at != NULL) live--;
    free(at);
}

void *asked_mmap(void *at, size_t bytes, int protection, int flags, int file, off_t offset) {
    if (!grants()) {
        errno = ENOMEM;
        return MAP_FAILED;
    }
    live++;
    return mmap(at, bytes, protection, flags, file, offset);
}

int asked_munmap(void *at, size_t bytes) {
    live--;
    return munmap(at, bytes);
}

static void each_request_is_refused(uint32_t (*open)(uint32_t, mpheap *), uint32_t pages) {
    mpheap heap = MPHEAP_CLOSED;
    uint32_t status = MPHEAP_NO_MEMORY;
    long granted = -1;
    while (status != MPHEAP_OK && granted < 1000) {
        left = ++granted;
        status = open(pages, &heap);
        if (status == MPHEAP_OK) break;
        IS(status, MPHEAP_NO_MEMORY);
        IS(heap.core == NULL, 1);
        IS(live, 0);
    }
    IS(status, MPHEAP_OK);
    IS(granted > 10, 1);
    left = 0;
    mpheap_close(&heap);
    IS(live, 0);
}

static uint32_t open_large(uint32_t pages, mpheap *heap) {
    return mpheap_open_with(pages, MPHEAP_MOST_REQUEST_WORDS, heap);
}

static uint32_t open_large_mapped(uint32_t pages, mpheap *heap) {
    return mpheap_open_mapped_with(pages, MPHEAP_MOST_REQUEST_WORDS, heap);
}

int main(void) {
    each_request_is_refused(mpheap_open, 16);
    each_request_is_refused(mpheap_open, MPHEAP_MAX_PAGES);
    each_request_is_refused(mpheap_open_mapped, 16);
    each_request_is_refused(mpheap_open_mapped, 1);
    each_request_is_refused(open_large, MPHEAP_MAX_PAGES + 1);
    each_request_is_refused(open_large_mapped, MPHEAP_MAX_PAGES + 1);
    return counts("refused");
}
