/* What an object costs of which more is known than its size, over either heap.
 *
 *     typed NAME
 *
 * prints the nanoseconds of an object, collections with them, the least of some rounds. NAME is one of
 *
 *     dropped        a typed object, which nothing keeps for long
 *     kept           the same, beside 100,000 typed ones that stay
 *     array          four typed elements by one request
 *     freed          a typed object, which the program frees
 *     listed         lists of a thousand typed objects, each dropped for the next
 *     uncollectable  an uncollectable object is made and freed
 *     plain          an ordinary one, which nothing keeps for long: to compare with */
#define _GNU_SOURCE
#include <stdint.h>
#include <stdio.h>
#include <string.h>
#include <time.h>
#include "gc.h"
#include <gc/gc_typed.h>

enum { ROUNDS = 7, COUNT = 300000, KEPT = 100000, ELEMENTS = 4, LENGTH = 1000, RING = 64 };
struct pair { struct pair *next; uint64_t number; };
static GC_descr type;
static struct pair *recent[RING], *kept[KEPT], *list;

static struct pair *typed(void) { return GC_malloc_explicitly_typed(sizeof(struct pair), type); }

static void dropped(int k) { recent[k % RING] = typed(); }
static void array(int k) { recent[k % RING] = GC_calloc_explicitly_typed(ELEMENTS, sizeof(struct pair), type); }
static void uncollectable(int k)
{
    uint64_t *object = GC_malloc_uncollectable(sizeof(struct pair));
    *object = (uint64_t)k + 1;
    GC_free(object);
}
static void freed(int k)
{
    struct pair *one = typed();
    one->number = (uint64_t)k + 1;
    GC_free(one);
}
static void plain(int k) { recent[k % RING] = GC_malloc(sizeof(struct pair)); }
static void listed(int k)
{
    struct pair *one = typed();
    one->next = k % LENGTH == 0 ? NULL : list;
    list = one;
}

static const struct { const char *name; void (*make)(int k); } all[] = {
    { "dropped", dropped }, { "kept", dropped }, { "array", array }, { "freed", freed }, { "listed", listed },
    { "uncollectable", uncollectable }, { "plain", plain },
};

static double now(void)
{
    struct timespec time;
    clock_gettime(CLOCK_PROCESS_CPUTIME_ID, &time);
    return (double)time.tv_sec * 1e9 + (double)time.tv_nsec;
}

static double round_of(void (*make)(int k))
{
    double start = now();
    for (int k = 0; k < COUNT; k++) make(k);
    return (now() - start) / COUNT;
}

int main(int count, char **words)
{
    size_t which = 0;
    double least = 1e18;
    while (count == 2 && which < sizeof all / sizeof *all && strcmp(all[which].name, words[1]) != 0) which++;
    if (count != 2 || which == sizeof all / sizeof *all) return 1;
    GC_INIT();
    type = GC_make_descriptor(&(GC_word){ 1 }, 2);
    for (int k = 0; strcmp(words[1], "kept") == 0 && k < KEPT; k++) {
        kept[k] = typed();
        kept[k]->next = k > 0 ? kept[k - 1] : NULL;
    }
    for (int k = 0; k < ROUNDS; k++) {
        double took = round_of(all[which].make);
        if (took < least) least = took;
    }
    printf("%.1f\n", least);
    return 0;
}
