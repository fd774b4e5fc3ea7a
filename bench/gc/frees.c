/* What a request costs with a free, over either heap.
 *
 *     frees NAME BYTES [locked]
 *
 * prints the nanoseconds of a step, the least of many rounds. NAME is `stack`: four objects are asked for, written and freed, again and again;
 * or `queue`: the oldest of a thousand objects is freed and a new one asked for, a thousand times behind a collection, so that each was made
 * before it. `locked` says first that there may be other threads. */
#define _GNU_SOURCE
#include <stdint.h>
#include <stdio.h>
#include <stdlib.h>
#include <string.h>
#include <time.h>
#include "gc.h"

void GC_allow_register_threads(void);

enum { ROUNDS = 300, QUEUE = 1000, STACK = 4 };
static void *objects[QUEUE];
static size_t bytes;

static double now(void)
{
    struct timespec time;
    clock_gettime(CLOCK_PROCESS_CPUTIME_ID, &time);
    return (double)time.tv_sec * 1e9 + (double)time.tv_nsec;
}

static void *make(void)
{
    uint64_t *object = GC_malloc(bytes);
    *object = 1;
    return object;
}

static double stack(void)
{
    double start = now();
    for (int k = 0; k < QUEUE / STACK; k++) {
        for (int at = 0; at < STACK; at++) objects[at] = make();
        for (int at = STACK; at-- > 0;) GC_free(objects[at]);
    }
    return now() - start;
}

static double queue(void)
{
    for (int k = 0; k < QUEUE; k++)
        if (!objects[k]) objects[k] = make();
    GC_gcollect();
    double start = now();
    for (int k = 0; k < QUEUE; k++) {
        GC_free(objects[k]);
        objects[k] = make();
    }
    return now() - start;
}

int main(int count, char **words)
{
    if (count < 3) return 1;
    double (*round)(void) = strcmp(words[1], "queue") == 0 ? queue : stack, least = 1e18;
    bytes = strtoull(words[2], NULL, 10);
    GC_INIT();
    if (count > 3) GC_allow_register_threads();
    for (int k = 0; k < ROUNDS; k++) {
        double took = round();
        if (took < least) least = took;
    }
    printf("%.1f\n", least / QUEUE);
    return 0;
}
