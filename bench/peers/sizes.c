/* sizes PAGES: what calls of the heap for C cost on a mapped heap of so many pages, of which 1,000 are in use, each by one object that a list
 * keeps: a line NAME NUMBER each. `open` is in microseconds and `resident` the kilobytes that it made resident; the calls are the medians of
 * 1,001 rounds, in nanoseconds. The others are in microseconds, and only where a third word asks for them, since they touch all: requests for two
 * pages where all pages but the last two have objects, every other one of which was freed. `first` is the first one; `run` the least of those behind
 * a free of the lowest page, so that each looks through all pages again; `again` one behind its own free; and `none` one where those two have
 * objects as well, and it is refused. */
#define _POSIX_C_SOURCE 200809L
#include "mpheap.h"
#include <stdio.h>
#include <stdlib.h>
#include <time.h>

enum { ROUNDS = 1001, IN_USE = 1000, LIST = 1, NEW = 2 };
static mpheap heap = MPHEAP_CLOSED;
static uint8_t slot;
static uint64_t number;
static double taken[ROUNDS];

static void done(uint32_t status) {
    if (status != MPHEAP_OK) abort();
}

static double now(void) {
    struct timespec time;
    clock_gettime(CLOCK_MONOTONIC, &time);
    return (double)time.tv_sec * 1e9 + (double)time.tv_nsec;
}

static long resident(void) {
    long all = 0, there = 0;
    FILE *file = fopen("/proc/self/statm", "r");
    if (file == NULL || fscanf(file, "%ld %ld", &all, &there) != 2) abort();
    fclose(file);
    return there * (MPHEAP_PAGE_BYTES / 1024);
}

static int compare(const void *a, const void *b) {
    double x = *(const double *)a, y = *(const double *)b;
    return (x > y) - (x < y);
}

static void show(const char *name) {
    qsort(taken, ROUNDS, sizeof *taken, compare);
    printf("%s %.0f\n", name, taken[ROUNDS / 2]);
}

/* One more object that the list keeps. */
static void add(void) {
    done(mpheap_alloc(&heap, slot, NEW, MPHEAP_PAGE_WORDS));
    done(mpheap_store(&heap, slot, NEW, 0, LIST));
    done(mpheap_copy(&heap, slot, LIST, NEW));
}

static void sweep_all(void) {
    do done(mpheap_sweep(&heap, &number));
    while (number == 1);
}

static void begin(void) { done(mpheap_begin(&heap)); }
static void finish(void) { done(mpheap_finish(&heap, &number)); }
static void collect(void) { done(mpheap_collect(&heap, &number)); }
static void sweep(void) { done(mpheap_sweep(&heap, &number)); }
static void request(void) { done(mpheap_alloc(&heap, slot, NEW, MPHEAP_PAGE_WORDS)); }
static void nothing(void) {}
static void give_up(void) { done(mpheap_free(&heap, slot, NEW)); }

static void measure(const char *name, void (*before)(void), void (*call)(void), void (*after)(void)) {
    for (int k = 0; k < ROUNDS; k++) {
        before();
        double start = now();
        call();
        taken[k] = now() - start;
        after();
    }
    show(name);
}

static void end(void) {
    finish();
    sweep_all();
}

/* Microseconds. */
static double request_two(uint32_t status) {
    uint64_t base;
    double start = now();
    if (mpheap_alloc_base(&heap, slot, NEW, 2 * MPHEAP_PAGE_WORDS, &base) != status) abort();
    return (now() - start) / 1e3;
}

static double look_through(void) {
    enum { TIMES = 11 };
    double least = 1e9;
    for (int k = 0; k < TIMES; k++) {
        request();
        give_up();
        double took = request_two(MPHEAP_OK);
        if (took < least) least = took;
        give_up();
    }
    return least;
}

static void measure_runs(uint32_t pages) {
    uint64_t *bases = malloc(pages * sizeof *bases);
    if (bases == NULL) abort();
    for (uint32_t k = 0; k < pages - 2 - IN_USE; k++) done(mpheap_alloc_base(&heap, slot, NEW, MPHEAP_PAGE_WORDS, &bases[k]));
    for (uint32_t k = 1; k < pages - 2 - IN_USE; k += 2) {
        done(mpheap_set(&heap, slot, NEW, bases[k]));
        done(mpheap_free(&heap, slot, NEW));
    }
    printf("first %.1f\n", request_two(MPHEAP_OK));
    give_up();
    printf("run %.1f\n", look_through());
    printf("again %.1f\n", request_two(MPHEAP_OK));
    printf("none %.1f\n", request_two(MPHEAP_FULL));
    free(bases);
}

int main(int count, char **words) {
    if (count < 2) return 2;
    uint32_t pages = (uint32_t)atol(words[1]);
    long there = resident();
    double start = now();
    done(mpheap_open_mapped_with(pages, MPHEAP_MOST_REQUEST_WORDS, &heap));
    printf("open %.0f\n", (now() - start) / 1e3);
    printf("resident %ld\n", resident() - there);
    done(mpheap_attach(&heap, &slot));
    for (int k = 0; k < IN_USE; k++) add();
    measure("begin", nothing, begin, end);
    measure("finish", begin, finish, sweep_all);
    measure("collect", nothing, collect, nothing);
    measure("sweep", nothing, sweep, nothing);
    measure("request", nothing, request, give_up);
    if (count > 2) measure_runs(pages);
    return 0;
}
