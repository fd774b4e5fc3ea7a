/* A heap of some 250 megabytes in small steps, whose pages are written all over while cycles mark: more of them than the kernel would have
 * mappings for. Each page has the only pointer to a node, and nodes change places. */
#define _GNU_SOURCE
#include <stdint.h>
#include "gc.h"
#include "check.h"

enum { PAGES = 60000, CYCLES = 3 };
struct node { uint64_t number, again; };
struct page { struct node *node; char rest[3900]; };
static struct page **table;

static uint64_t state = 88172645463325252ull;
static uint64_t next_random(void)
{
    state ^= state << 13;
    state ^= state >> 7;
    state ^= state << 17;
    return state;
}

static struct node *make(uint64_t number)
{
    struct node *one = GC_malloc(sizeof *one);
    *one = (struct node){ number, ~number };
    return one;
}

static void exchange_some(void)
{
    for (int k = 0; k < 300; k++) {
        struct page *a = table[next_random() % PAGES], *b = table[next_random() % PAGES];
        struct node *node = a->node;
        a->node = b->node;
        b->node = node;
    }
}

static int all_are_there(void)
{
    uint64_t sum = 0;
    for (int k = 0; k < PAGES; k++) {
        const struct node *one = table[k]->node;
        if (one->again != ~one->number) return 0;
        sum += one->number;
    }
    return sum == (uint64_t)PAGES * (PAGES - 1) / 2;
}

int main(void)
{
    GC_INIT();
    table = GC_malloc(PAGES * sizeof *table);
    for (int k = 0; k < PAGES; k++) {
        table[k] = GC_malloc(sizeof **table);
        table[k]->node = make((uint64_t)k);
    }
    GC_enable_incremental();
    for (int cycle = 0; cycle < CYCLES; cycle++) {
        GC_word before = GC_get_gc_no();
        GC_start_incremental_collection();
        for (int k = 0; k < 1000000 && GC_get_gc_no() == before; k++) {
            exchange_some();
            GC_collect_a_little();
        }
        CHECK(GC_get_gc_no() > before);
        for (int k = 0; k < 100000; k++) make(7);
        CHECK(all_are_there());
    }
    CHECK(GC_get_heap_size() > (size_t)200 << 20);
    return check_ends();
}
