/* How long full collections stop a program of two threads that keeps a million objects of 40 bytes, by bdwgc's gc.h, of one source for bdwgc
 * and for libmpgc:
 *
 *     stops lists | tree | upwards | scattered | array
 *
 * They are 64 lists, of which each takes every 64th object; or a tree, made from the top, whose branches lie one behind the other; or
 * one made from its leaves, so that each object lies behind its branches; or one whose objects lie in random places; or
 * they hang from an array, in random order. Printed are, of 10 collections, the median and the longest stop, the median and the longest
 * GC_gcollect, all in microseconds on the wall, and how many objects are still there. A stop is from the moment that the library says it
 * stops the world to that at which it says it has started it. In a GC_gcollect right behind another libmpgc lets other threads run
 * first, for a millisecond. The second thread sleeps: with it both libraries make markers, as many as GC_MARKERS says, or it fails. */
#define _GNU_SOURCE
#define GC_THREADS
#include <pthread.h>
#include <stdint.h>
#include <stdio.h>
#include <stdlib.h>
#include <string.h>
#include <time.h>
#include <unistd.h>
#include "gc.h"

enum { OBJECTS = 1000000, LISTS = 64, COLLECTIONS = 10 };

struct object { struct object *left, *right; uint64_t number[3]; };

static struct object *lists[LISTS], *tree, **array;

static double now(void)
{
    struct timespec time;
    clock_gettime(CLOCK_MONOTONIC, &time);
    return (double)time.tv_sec * 1e6 + (double)time.tv_nsec / 1e3;
}

static uint64_t next_random(void)
{
    static uint64_t state = 88172645463325252u;
    state ^= state << 13;
    state ^= state >> 7;
    state ^= state << 17;
    return state >> 8;
}

static struct object *ask(uint64_t number)
{
    struct object *object = GC_MALLOC(sizeof *object);
    if (!object) abort();
    object->number[0] = number;
    return object;
}

/* ---- The objects ---- */

static void make_lists(void)
{
    for (uint64_t k = 0; k < OBJECTS; k++) {
        struct object *first = ask(1);
        first->right = lists[k % LISTS];
        lists[k % LISTS] = first;
    }
}

static uint64_t count_lists(void)
{
    uint64_t count = 0;
    for (int k = 0; k < LISTS; k++)
        for (const struct object *at = lists[k]; at; at = at->right) count += at->number[0];
    return count;
}

static struct object *grow(uint64_t count)
{
    if (count == 0) return NULL;
    struct object *top = ask(1);
    top->left = grow((count - 1) / 2);
    top->right = grow(count - 1 - (count - 1) / 2);
    return top;
}

static uint64_t count_branch(const struct object *top)
{
    return top ? top->number[0] + count_branch(top->left) + count_branch(top->right) : 0;
}

static void make_tree(void) { tree = grow(OBJECTS); }
static uint64_t count_tree(void) { return count_branch(tree); }

static struct object *grow_upwards(uint64_t count)
{
    if (count == 0) return NULL;
    struct object *left = grow_upwards((count - 1) / 2), *right = grow_upwards(count - 1 - (count - 1) / 2);
    struct object *top = ask(1);
    top->left = left;
    top->right = right;
    return top;
}

static void make_upwards(void) { tree = grow_upwards(OBJECTS); }

static void make_array(void)
{
    array = GC_MALLOC(OBJECTS * sizeof *array);
    if (!array) abort();
    for (uint64_t k = 0; k < OBJECTS; k++) array[k] = ask(1);
    for (uint64_t k = OBJECTS - 1; k > 0; k--) {
        uint64_t other = next_random() % (k + 1);
        struct object *one = array[k];
        array[k] = array[other];
        array[other] = one;
    }
}

/* What the array has becomes a tree, level by level, and the array goes. */
static void make_scattered(void)
{
    make_array();
    for (uint64_t k = 0; 2 * k + 1 < OBJECTS; k++) {
        array[k]->left = array[2 * k + 1];
        if (2 * k + 2 < OBJECTS) array[k]->right = array[2 * k + 2];
    }
    tree = array[0];
    memset(array, 0, OBJECTS * sizeof *array);
    array = NULL;
}

static uint64_t count_array(void)
{
    uint64_t count = 0;
    for (uint64_t k = 0; k < OBJECTS; k++) count += array[k]->number[0];
    return count;
}

/* ---- The collections ---- */

static double stopped_at, stop;

static void on_event(GC_EventType event)
{
    if (event == GC_EVENT_PRE_STOP_WORLD) stopped_at = now();
    if (event == GC_EVENT_POST_START_WORLD && stopped_at > 0) stop = now() - stopped_at;
}

static void *sleep_until_written(void *ends)
{
    char byte;
    while (read(*(int *)ends, &byte, 1) < 0) continue;
    return NULL;
}

static int by_length(const void *one, const void *other)
{
    double a = *(const double *)one, b = *(const double *)other;
    return (a > b) - (a < b);
}

static double stops[COLLECTIONS], whole[COLLECTIONS];

static void collect(void)
{
    GC_set_on_collection_event(on_event);
    for (int k = 0; k < COLLECTIONS; k++) {
        stopped_at = stop = 0;
        double start = now();
        GC_gcollect();
        whole[k] = now() - start;
        stops[k] = stop > 0 ? stop : whole[k];
    }
    qsort(stops, COLLECTIONS, sizeof *stops, by_length);
    qsort(whole, COLLECTIONS, sizeof *whole, by_length);
}

static int has_markers(void)
{
    const char *markers = getenv("GC_MARKERS");
    if (!markers || GC_get_parallel() == atoi(markers) - 1) return 1;
    fprintf(stderr, "stops: %d markers and not %s\n", GC_get_parallel() + 1, markers);
    return 0;
}

int main(int count, char **words)
{
    static const struct { const char *name; void (*make)(void); uint64_t (*count)(void); } all[] = {
        { "lists", make_lists, count_lists }, { "tree", make_tree, count_tree }, { "upwards", make_upwards, count_tree },
        { "scattered", make_scattered, count_tree }, { "array", make_array, count_array }
    };
    int ends[2];
    pthread_t second;
    GC_INIT();
    if (count != 2 || pipe(ends) != 0 || pthread_create(&second, NULL, sleep_until_written, ends) != 0) return 2;
    for (size_t k = 0; k < sizeof all / sizeof *all; k++) {
        if (strcmp(words[1], all[k].name) != 0) continue;
        all[k].make();
        collect();
        printf("%.0f %.0f %.0f %.0f %lu\n", stops[COLLECTIONS / 2], stops[COLLECTIONS - 1], whole[COLLECTIONS / 2],
               whole[COLLECTIONS - 1], (unsigned long)all[k].count());
    }
    if (write(ends[1], "", 1) != 1 || pthread_join(second, NULL) != 0) return 2;
    return !has_markers();
}
