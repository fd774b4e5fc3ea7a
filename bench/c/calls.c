/* What calls of mpheap.h cost a program in C, and the same by pointers: calls ROUNDS prints for each a name and the least nanoseconds of
 * the rounds. Objects have two words, in a heap of 1,024 pages whose words stand at their addresses. */
#define _POSIX_C_SOURCE 199309L
#include "mpheap.h"
#include <stdio.h>
#include <stdlib.h>
#include <time.h>

enum { PAGES = 1024, OBJECTS = 20000, TIMES = 1000000, AT = 0, WORD = 1, NEW = 2 };

static mpheap heap = MPHEAP_CLOSED;
static mpheap_told told = MPHEAP_TOLD;
static uint8_t me;
static uint64_t first, sum;

static double now(void) {
    struct timespec time;
    clock_gettime(CLOCK_PROCESS_CPUTIME_ID, &time);
    return (double)time.tv_sec * 1e9 + (double)time.tv_nsec;
}

static void stop(const char *why) {
    fprintf(stderr, "calls: %s\n", why);
    exit(1);
}

static void counts(void) {
    for (int k = 0; k < TIMES; k++) sum += mpheap_gc_no(&heap);
}

static void register_words(void) {
    uint64_t word = 0;
    for (int k = 0; k < TIMES; k++) {
        mpheap_get(&heap, me, WORD, &word);
        sum += word;
    }
}

static void loads(void) {
    uint64_t word = 0;
    for (int k = 0; k < TIMES; k++) {
        mpheap_load(&heap, me, WORD, AT, 1, &word);
        sum += word;
    }
}

static void stores(void) {
    for (int k = 0; k < TIMES; k++) mpheap_store(&heap, me, AT, 1, WORD);
}

static void reads(void) {
    volatile uint64_t *at = (uint64_t *)(uintptr_t)first;
    for (int k = 0; k < TIMES; k++) sum += at[1];
}

static void writes(void) {
    volatile uint64_t *at = (uint64_t *)(uintptr_t)first;
    for (int k = 0; k < TIMES; k++) {
        mpheap_before_write(&heap, &told, (const void *)at);
        at[1] = (uint64_t)k;
    }
}

static void allocates(void) {
    uint64_t base = 0, gone = 0;
    for (int k = 0; k < TIMES; k++) {
        if (k % OBJECTS == 0) {
            mpheap_collect(&heap, &gone);
            mpheap_tells_anew(&told);
        }
        if (mpheap_alloc_base(&heap, me, NEW, 2, &base) != MPHEAP_OK) stop("no room");
        sum += base;
    }
}

static void allocates_and_frees(void) {
    for (int k = 0; k < TIMES; k++) {
        if (mpheap_alloc(&heap, me, NEW, 2) != MPHEAP_OK || mpheap_free(&heap, me, NEW) != MPHEAP_OK) stop("refused");
    }
}

int main(int argc, char **argv) {
    static const struct { const char *name; void (*run)(void); } calls[] = {
        { "mpheap_gc_no", counts }, { "mpheap_get", register_words }, { "mpheap_load", loads }, { "mpheap_store", stores },
        { "a word by a pointer", reads }, { "a word by mpheap_before_write and a pointer", writes },
        { "mpheap_alloc_base, and a collect every 20,000", allocates }, { "mpheap_alloc and mpheap_free", allocates_and_frees }
    };
    int rounds = argc > 1 ? atoi(argv[1]) : 5;
    if (mpheap_open_mapped(PAGES, &heap) != MPHEAP_OK || mpheap_attach(&heap, &me) != MPHEAP_OK) stop("no heap");
    if (mpheap_alloc_base(&heap, me, AT, 2, &first) != MPHEAP_OK) stop("no room");
    mpheap_tells_anew(&told);
    for (size_t k = 0; k < sizeof calls / sizeof *calls; k++) {
        double least = 1e30;
        for (int round = 0; round < rounds; round++) {
            double start = now();
            calls[k].run();
            if (now() - start < least) least = now() - start;
        }
        printf("%-48s %5.1f ns\n", calls[k].name, least / TIMES);
    }
    mpheap_close(&heap);
    return sum == 0;
}
