/* Memory that the caller lends (c/lent.c): blocks that come, grow and go at random, beside a shadow of what stands in each; what malloc
 * gave; zeros; and a heap that lives in it, with each request refused in turn as it becomes smaller. */
#define _GNU_SOURCE
#include "../../c/lent.h"
#include "check.h"
#include "mpheap.h"
#include <stdlib.h>
#include <string.h>
#include <sys/mman.h>
#include <unistd.h>

typedef struct {
    bool ok;
    void *at;
} memory;
memory rattle_alloc(size_t bytes, size_t align);
memory rattle_realloc(void *at, size_t kept, size_t bytes, size_t align);
void rattle_dealloc(void *at);
void *mpheap_memset(void *at, int byte, size_t bytes);

enum { BYTES = 1 << 20, BLOCKS = 64, MOST = 30000 };
static unsigned char *room;
static struct { unsigned char *at; size_t bytes; unsigned char byte; } blocks[BLOCKS];
static uint64_t state = 88172645463325252u;

static uint64_t draw(uint64_t below) {
    state ^= state << 13;
    state ^= state >> 7;
    state ^= state << 17;
    return (state >> 8) % below;
}

static bool is_whole(size_t k) {
    for (size_t b = 0; b < blocks[k].bytes; b++)
        if (blocks[k].at[b] != blocks[k].byte) return false;
    return true;
}

static void fill(size_t k, size_t bytes) {
    blocks[k].bytes = bytes;
    blocks[k].byte = (unsigned char)draw(256);
    memset(blocks[k].at, blocks[k].byte, bytes);
}

static bool is_inside(const unsigned char *at, size_t bytes) {
    return at >= room && at + bytes <= room + BYTES && (uintptr_t)at % 16 == 0;
}

static size_t size(void) {
    return draw(4) == 0 ? draw(MOST) : draw(200);
}

static void come(size_t k) {
    size_t bytes = size();
    memory given = rattle_alloc(bytes, 8);
    if (!given.ok) return;
    blocks[k].at = given.at;
    IS(is_inside(blocks[k].at, bytes), 1);
    fill(k, bytes);
}

static void grow(size_t k) {
    size_t bytes = size(), kept = blocks[k].bytes < bytes ? blocks[k].bytes : bytes;
    memory given = rattle_realloc(blocks[k].at, kept, bytes, 8);
    if (!given.ok) return;
    blocks[k].at = given.at;
    blocks[k].bytes = kept;
    IS(is_inside(blocks[k].at, bytes) && is_whole(k), 1);
    fill(k, bytes);
}

static void go(size_t k) {
    rattle_dealloc(blocks[k].at);
    blocks[k].at = NULL;
}

static void blocks_keep_their_bytes(void) {
    size_t refused = 0;
    mpheap_lend_memory(room, BYTES);
    mpheap_use_memory(room);
    for (int step = 0; step < 20000; step++) {
        size_t k = draw(BLOCKS);
        if (blocks[k].at == NULL) come(k);
        else if (!is_whole(k)) break;
        else if (draw(3) == 0) grow(k);
        else go(k);
        refused += blocks[k].at == NULL;
    }
    IS(refused > 0, 1);
    for (size_t k = 0; k < BLOCKS; k++) {
        if (blocks[k].at == NULL) continue;
        IS(is_whole(k), 1);
        go(k);
    }
    memory whole = rattle_alloc(BYTES - 64, 8); /* all blocks have become one again */
    IS(whole.ok, 1);
    rattle_dealloc(whole.at);
    IS(rattle_alloc(BYTES, 8).ok, 0);
    IS(rattle_alloc(SIZE_MAX - 8, 8).ok, 0);
    mpheap_use_memory(NULL);
}

/* The library makes a row of zeros so, and that of malloc is zero before: lent memory has to be written. */
static void a_row_is_cleared(void) {
    size_t bytes = 100000, ones = 0;
    memset(room, 7, BYTES);
    mpheap_lend_memory(room, BYTES);
    mpheap_use_memory(room);
    unsigned char *row = rattle_alloc(bytes, 8).at;
    mpheap_memset(row, 0, bytes - 8);
    for (size_t b = 0; b < bytes - 8; b++) ones += row[b] != 0;
    IS(ones, 0);
    rattle_dealloc(row);
    mpheap_use_memory(NULL);
}

/* Of a mapping the same, wherever a row begins and ends, and nothing else is cleared: not what lies beside the row, nor a row of other bytes, nor
 * one that isn't of it. Pages that are locked are written. */
static void a_row_of_a_mapping_is_cleared(bool is_locked) {
    unsigned char *mapped = mmap(NULL, BYTES, PROT_READ | PROT_WRITE, MAP_PRIVATE | MAP_ANONYMOUS, -1, 0);
    if (mapped == MAP_FAILED || (is_locked && mlock(mapped, BYTES) != 0)) return; /* as much as may be locked */
    size_t wrong = 0;
    memset(mapped, 7, BYTES);
    memset(room, 7, BYTES);
    mpheap_lend_mapping(mapped, BYTES);
    mpheap_use_memory(mapped);
    for (size_t bytes = 16000; bytes < 70000; bytes += 1000 + draw(3000)) {
        unsigned char *row = rattle_alloc(bytes, 8).at, *next = rattle_alloc(100, 8).at;
        memset(row, 7, bytes);
        memset(next, 7, 100);
        IS(mpheap_memset(row, 0, bytes - 8) == row, 1);
        for (size_t b = 0; b < bytes; b++) wrong += row[b] != (b < bytes - 8 ? 0 : 7);
        for (size_t b = 0; b < 100; b++) wrong += next[b] != 7;
        mpheap_memset(row, 5, bytes - 8);
        for (size_t b = 0; b < bytes; b++) wrong += row[b] != (b < bytes - 8 ? 5 : 7);
        rattle_dealloc(row);
    }
    mpheap_memset(room + 100, 0, 50000);
    for (size_t b = 0; b < BYTES; b++) wrong += room[b] != (b >= 100 && b < 50100 ? 0 : 7);
    IS(wrong, 0);
    mpheap_use_memory(NULL);
    munmap(mapped, BYTES);
}

/* Few of the pages of a row that is cleared again are there. */
static void a_cleared_row_is_not_written(void) {
    unsigned char there[BYTES / 4096], *mapped = mmap(NULL, BYTES, PROT_READ | PROT_WRITE, MAP_PRIVATE | MAP_ANONYMOUS, -1, 0);
    size_t count = 0;
    if (mapped == MAP_FAILED || sysconf(_SC_PAGESIZE) != 4096) return;
    memset(mapped, 7, BYTES);
    mpheap_lend_mapping(mapped, BYTES);
    mpheap_use_memory(mapped);
    mpheap_memset(rattle_alloc(BYTES / 2, 8).at, 0, BYTES / 2 - 8);
    IS(mincore(mapped, BYTES / 2, there), 0);
    for (size_t page = 0; page < sizeof there / 2; page++) count += there[page] & 1;
    IS(count <= 3, 1);
    mpheap_use_memory(NULL);
    munmap(mapped, BYTES);
}

/* What came before keeps its bytes, and goes back to where it came from: the sanitizers see a leak or a wrong free. */
static void what_malloc_gave_goes_back(void) {
    unsigned char *small = rattle_alloc(40, 8).at, *grown = rattle_alloc(40, 8).at, *large = rattle_alloc(50000, 8).at;
    memset(grown, 5, 40);
    mpheap_lend_memory(room, BYTES);
    mpheap_use_memory(room);
    rattle_dealloc(small);
    rattle_dealloc(large);
    grown = rattle_realloc(grown, 40, 400, 8).at;
    IS(is_inside(grown, 400), 1);
    IS(grown[0] == 5 && grown[39] == 5, 1);
    rattle_dealloc(grown);
    mpheap_use_memory(NULL);
    small = rattle_alloc(40, 8).at;
    IS(is_inside(small, 40), 0);
    rattle_dealloc(small);
}

/* Another use finds what the first one left, and a full memory is a refusal. */
static void a_heap_lives_in_it(void) {
    mpheap heap = MPHEAP_CLOSED;
    uint8_t slot = 9;
    uint64_t base = 0;
    size_t bytes = 4096;
    for (uint32_t status = MPHEAP_NO_MEMORY; status != MPHEAP_OK; bytes += 4096) {
        IS(bytes <= BYTES, 1);
        if (bytes > BYTES) return;
        mpheap_lend_memory(room, bytes);
        mpheap_use_memory(room);
        status = mpheap_open(4, &heap);
        IS(status == MPHEAP_OK || status == MPHEAP_NO_MEMORY, 1);
        mpheap_use_memory(NULL);
    }
    IS(bytes > 8192, 1);
    IS((unsigned char *)heap.core >= room && (unsigned char *)heap.core < room + BYTES, 1);
    IS(mpheap_attach(&heap, &slot), MPHEAP_OK);
    IS(mpheap_alloc_base(&heap, slot, 0, 100, &base), MPHEAP_OK);
    mpheap_use_memory(room);
    mpheap_close(&heap);
    IS(mpheap_open(4, &heap), MPHEAP_OK);
    mpheap_close(&heap);
    mpheap_use_memory(NULL);
}

int main(void) {
    room = malloc(BYTES);
    if (room == NULL) return 9;
    blocks_keep_their_bytes();
    a_row_is_cleared();
    a_row_of_a_mapping_is_cleared(false);
    a_row_of_a_mapping_is_cleared(true);
    a_cleared_row_is_not_written();
    what_malloc_gave_goes_back();
    a_heap_lives_in_it();
    free(room);
    return counts("lent");
}
