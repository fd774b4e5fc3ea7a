/* The memory of a heap for C: the three functions by which the proved library asks for memory, over malloc, realloc and free, or
 * over memory that the caller lends (lent.c), and mpheap_open_mapped, by which the words of one heap stand at their own addresses.
 *
 * Trusted, not proved: the library's proofs take it that what these three answer is memory of so many bytes, aligned to 16 or
 * less, that nobody else uses until it is given back, and that a growth keeps the bytes that were there. And that memset
 * leaves the byte in each place: what was just mapped, or came from calloc, has 0 in each, and is not written again; nor are
 * whole pages of a lent mapping, which the kernel clears. */
#ifndef _GNU_SOURCE
#define _GNU_SOURCE
#endif
#include "lent.h"
#include "mpheap.h"
#include <errno.h>
#include <stdatomic.h>
#include <stddef.h>
#include <stdlib.h>
#include <sys/mman.h>

/* What the library takes as an answer: whether there is memory, and where. */
typedef struct {
    bool ok;
    void *at;
} memory;

memory rattle_alloc(size_t bytes, size_t align);
memory rattle_realloc(void *at, size_t kept, size_t bytes, size_t align);
void rattle_dealloc(void *at);

/* What the library calls in place of memset: c/archive renames it there. */
void *mpheap_memset(void *at, int byte, size_t bytes);

/* In a refusal no memory is named, but the pointer is none the less not null. */
static char refused;

/* The bytes that are mapped at the heap's addresses; 0 where none are. */
static atomic_size_t mapped;

/* While this thread opens a mapped heap: the bytes of its words, and how many requests of that size come before theirs. */
static _Thread_local size_t wanted __attribute__((tls_model("initial-exec")));
static _Thread_local uint32_t before __attribute__((tls_model("initial-exec")));
static _Thread_local bool is_taken __attribute__((tls_model("initial-exec")));

/* The bytes of words that this thread has just mapped, and that nobody has touched: the kernel has them 0. */
static _Thread_local size_t untouched __attribute__((tls_model("initial-exec")));

/* What the last request of this thread was given, if that was a large one: calloc has it 0. The library makes a row of zeros by a
 * request, a memset of all of it but the last word, and a store of that, with nothing between the three, and writes no other
 * memory as a whole. So that memset is left out, and of a large row only what is used is ever touched. With so much to spare
 * calloc has the system map the row; what it took from its own store it would have to clear. */
enum { LARGE = 16 * 1024, SPARE = 256 * 1024, LAST = 8 };
static _Thread_local void *fresh __attribute__((tls_model("initial-exec")));
static _Thread_local size_t fresh_bytes __attribute__((tls_model("initial-exec")));

static void *first_address(void) {
    return (void *)(uintptr_t)MPHEAP_FIRST_ADDRESS;
}

static memory answer(void *at) {
    memory given = { at != NULL, at != NULL ? at : &refused };
    return given;
}

/* The heap's own addresses, or null. */
static void *map_words(size_t bytes) {
    int flags = MAP_PRIVATE | MAP_ANONYMOUS | MAP_NORESERVE;
#ifdef MAP_FIXED_NOREPLACE
    flags |= MAP_FIXED_NOREPLACE;
#endif
    void *at = mmap(first_address(), bytes, PROT_READ | PROT_WRITE, flags, -1, 0);
    if (at == first_address()) {
        atomic_store(&mapped, bytes);
        untouched = bytes;
        return at;
    }
    is_taken = at != MAP_FAILED || errno == EEXIST;
    if (at != MAP_FAILED) munmap(at, bytes);
    return NULL;
}

memory rattle_alloc(size_t bytes, size_t align) {
    fresh = NULL;
    if (mpheap_is_lent()) return answer(mpheap_ask_lent(bytes != 0 ? bytes : align));
    if (wanted != 0 && bytes == wanted && before-- == 0) return answer(map_words(bytes));
    if (bytes < LARGE) return answer(malloc(bytes != 0 ? bytes : align));
    fresh = calloc(1, bytes + SPARE);
    fresh_bytes = bytes;
    return answer(fresh);
}

/* The library never grows the words of a heap, so what is mapped never comes here. */
memory rattle_realloc(void *at, size_t kept, size_t bytes, size_t align) {
    fresh = NULL;
    if (mpheap_is_lent()) return answer(mpheap_grow_lent(at, kept, bytes != 0 ? bytes : align));
    return answer(realloc(at, bytes != 0 ? bytes : align));
}

void rattle_dealloc(void *at) {
    size_t bytes = at == first_address() ? atomic_exchange(&mapped, 0) : 0;
    fresh = NULL;
    if (bytes != 0) {
        munmap(at, bytes);
    } else if (mpheap_is_lent()) {
        mpheap_give_back_lent(at);
    } else {
        free(at);
    }
}

/* The library clears a heap's words before anything else is done with them. Written, each page of them would have to be found by
 * the kernel at once, however small the program. */
static void *set_first(int byte, size_t bytes) {
    bool is_zero = byte == 0 && bytes <= untouched;
    untouched = 0;
    return is_zero ? first_address() : memset(first_address(), byte, bytes);
}

/* Each new object is cleared by a call of this too, so it does nothing first but look at the address. */
void *mpheap_memset(void *at, int byte, size_t bytes) {
    if (at == first_address()) return set_first(byte, bytes);
    if (bytes >= LARGE && byte == 0 && mpheap_clear_lent(at, bytes)) return at;
    if (at != fresh || at == NULL) return memset(at, byte, bytes);
    fresh = NULL;
    return byte == 0 && bytes + LAST == fresh_bytes ? at : memset(at, byte, bytes);
}

/* Whether what is mapped are the heap's words: a word that is stored into a new object stands at its address. The object and
 * its mutator go again. A heap that grants no request has no object whose words could stand elsewhere. */
static bool has_words_there(mpheap *heap) {
    uint8_t slot = 0;
    uint64_t base = 0;
    if (mpheap_attach(heap, &slot) != MPHEAP_OK) return false;
    uint32_t status = mpheap_alloc_base(heap, slot, 0, 1, &base);
    bool is_there = status == MPHEAP_BAD_SIZE;
    if (status == MPHEAP_OK) {
        volatile uint64_t *word = (volatile uint64_t *)(uintptr_t)base;
        mpheap_set(heap, slot, 1, ~base);
        mpheap_store(heap, slot, 0, 1, 1);
        is_there = word[1] == ~base;
        mpheap_free(heap, slot, 0);
    }
    mpheap_detach(heap, slot);
    return is_there;
}

/* Opens a heap with the request of the words' size behind so many others at the heap's addresses. */
static uint32_t open_behind(uint32_t pages, uint64_t request_words, mpheap *heap, uint32_t others) {
    wanted = (size_t)pages * MPHEAP_PAGE_BYTES;
    before = others;
    is_taken = false;
    uint32_t status = mpheap_open_with(pages, request_words, heap);
    wanted = 0;
    return status == MPHEAP_NO_MEMORY && is_taken ? MPHEAP_RANGE_TAKEN : status;
}

/* Whether a heap may have these limits: one that may not is told so first, also where another heap is mapped. */
static bool are_limits(uint32_t pages, uint64_t request_words) {
    return pages >= 1 && pages <= MPHEAP_MOST_PAGES && request_words <= MPHEAP_MOST_REQUEST_WORDS;
}

uint32_t mpheap_open_mapped_with(uint32_t pages, uint64_t request_words, mpheap *heap) {
    if (!are_limits(pages, request_words)) return MPHEAP_BAD_PAGES;
    if (atomic_load(&mapped) != 0) return MPHEAP_SECOND;
    /* Other parts of a small heap may ask for as many bytes as its words: so each such request is tried in turn. */
    for (uint32_t others = 0; others < 64; others++) {
        uint32_t status = open_behind(pages, request_words, heap, others);
        if (status != MPHEAP_OK) return status;
        if (atomic_load(&mapped) != 0 && has_words_there(heap)) return MPHEAP_OK;
        bool is_none = atomic_load(&mapped) == 0;
        mpheap_close(heap);
        if (is_none) break;
    }
    return MPHEAP_RANGE_TAKEN;
}

uint32_t mpheap_open_mapped(uint32_t pages, mpheap *heap) {
    /* Too many pages are refused as none are. */
    return mpheap_open_mapped_with(pages <= MPHEAP_MAX_PAGES ? pages : 0, MPHEAP_MAX_REQUEST_WORDS, heap);
}
