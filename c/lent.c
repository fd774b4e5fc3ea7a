/* Memory that the caller lends to the calls of one thread, for where malloc can't be asked: while other threads are stopped, one of them
 * may have its locks. Nothing here takes a lock or makes a call of the system, but where the memory is put away, and to clear a mapping.
 *
 * Trusted, not proved: that no two blocks overlap, and that each is aligned to 16; and of a private mapping without a file that a page is 0
 * once the kernel was given it back. What was given back is given out again: free blocks stand in a list by their addresses, and neighbours
 * are made one. A block isn't cleared: who wants zeros writes them, or asks for that (memory.c). */
#ifndef _GNU_SOURCE
#define _GNU_SOURCE
#endif
#include "lent.h"
#include "mpheap.h"
#include <stdint.h>
#include <stdlib.h>
#include <string.h>
#include <sys/mman.h>
#include <unistd.h>

/* A block has its head before it: all its bytes, and the next free one, if it is free. What malloc gave has `later` in its first bytes. */
struct block { size_t bytes; struct block *next; };
struct later { struct later *next; };

/* The memory begins with this. `free` has no bytes of its own, and stands before the first free block. */
struct lent { struct block free; struct later *later; size_t bytes; bool is_mapping; };

enum { UNIT = sizeof(struct block), HEAD = (sizeof(struct lent) + UNIT - 1) / UNIT * UNIT };

static _Thread_local struct lent *used __attribute__((tls_model("initial-exec")));

static char *end_of(struct block *block) { return (char *)block + block->bytes; }

void mpheap_lend_memory(void *at, size_t bytes) {
    struct lent *lent = at;
    struct block *all = (struct block *)((char *)at + HEAD);
    lent->bytes = bytes;
    lent->is_mapping = false;
    lent->later = NULL;
    lent->free.bytes = 0;
    lent->free.next = all;
    all->bytes = (bytes - HEAD) / UNIT * UNIT;
    all->next = NULL;
}

void mpheap_lend_mapping(void *at, size_t bytes) {
    mpheap_lend_memory(at, bytes);
    ((struct lent *)at)->is_mapping = true;
}

/* What malloc gave is freed once this is allowed again. */
static void free_later(struct lent *lent) {
    while (lent->later != NULL) {
        struct later *first = lent->later;
        lent->later = first->next;
        free(first);
    }
}

void mpheap_use_memory(void *at) {
    struct lent *before = used;
    used = at;
    if (before != NULL && at == NULL) free_later(before);
}

bool mpheap_is_lent(void) {
    return used != NULL;
}

/* What is behind so many bytes of a block becomes a free block, where the block was. */
static void cut(struct block *before, struct block *block, size_t bytes) {
    struct block *rest = (struct block *)((char *)block + bytes);
    before->next = block->next;
    if (block->bytes - bytes <= UNIT) return;
    rest->bytes = block->bytes - bytes;
    rest->next = block->next;
    before->next = rest;
    block->bytes = bytes;
}

void *mpheap_ask_lent(size_t bytes) {
    if (bytes > used->bytes) return NULL;
    size_t all = UNIT + (bytes + UNIT - 1) / UNIT * UNIT;
    for (struct block *before = &used->free, *block = before->next; block != NULL; before = block, block = block->next) {
        if (block->bytes < all) continue;
        cut(before, block, all);
        return block + 1;
    }
    return NULL;
}

static bool is_ours(void *at) {
    return (char *)at >= (char *)used && (char *)at < (char *)used + used->bytes;
}

/* Of a large row little is written before it goes again, so few of its pages are there to be taken. Locked ones the kernel refuses. */
bool mpheap_clear_lent(void *at, size_t bytes) {
    if (used == NULL || !used->is_mapping || !is_ours(at)) return false;
    uintptr_t page = (uintptr_t)sysconf(_SC_PAGESIZE), from = (uintptr_t)at, to = from + bytes;
    uintptr_t first = (from + page - 1) / page * page, end = to / page * page;
    if (first >= end || madvise((void *)first, end - first, MADV_DONTNEED) != 0) return false;
    memset(at, 0, first - from);
    memset((void *)end, 0, to - end);
    return true;
}

/* A block and the one behind it in the list are one, if nothing lies between them. */
static void join(struct block *block) {
    struct block *next = block->next;
    if (next == NULL || end_of(block) != (char *)next) return;
    block->bytes += next->bytes;
    block->next = next->next;
}

void mpheap_give_back_lent(void *at) {
    if (!is_ours(at)) {
        struct later *one = at;
        one->next = used->later;
        used->later = one;
        return;
    }
    struct block *block = (struct block *)at - 1, *before = &used->free;
    while (before->next != NULL && before->next < block) before = before->next;
    block->next = before->next;
    before->next = block;
    join(block);
    if (before != &used->free) join(before);
}

void *mpheap_grow_lent(void *at, size_t kept, size_t bytes) {
    void *grown = mpheap_ask_lent(bytes);
    size_t had = is_ours(at) ? ((struct block *)at - 1)->bytes - UNIT : kept;
    if (grown == NULL) return NULL;
    memcpy(grown, at, had < bytes ? had : bytes);
    mpheap_give_back_lent(at);
    return grown;
}
