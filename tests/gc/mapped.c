/* In a process that has nearly as many mappings as the kernel allows, pages can't be protected one by one, and some can't be opened alone; and in one
 * that may have less data than it has, none could: lists whose ends change places while cycles go on keep all that is theirs. Each number of
 * mappings that are left, and the limit of data, is tried in a child. */
#define _GNU_SOURCE
#include <stdint.h>
#include <sys/mman.h>
#include <sys/resource.h>
#include "gc.h"
#include "check.h"

enum { LISTS = 2000, NODES = 400000, LENGTH = NODES / LISTS, STEPS = 400000, OTHERS = 7777777, PAGE_BYTES = 4096, HALF_A_PAGE = 2000 };
struct node { struct node *next; uint64_t number; };
static struct node *lists[LISTS];

static void put(uint64_t k, size_t bytes)
{
    struct node *one = GC_malloc(bytes);
    *one = (struct node){ lists[k % LISTS], k / LISTS };
    lists[k % LISTS] = one;
}

/* Pages of pointer-free objects lie between the first nodes of all lists and the others. */
static void *between[LISTS];
static void make_lists(void)
{
    for (uint64_t k = 0; k < NODES - LISTS; k++) put(k, sizeof(struct node));
    for (int k = 0; k < LISTS; k++) between[k] = GC_malloc_atomic(2 * HALF_A_PAGE);
    for (uint64_t k = NODES - LISTS; k < NODES; k++) put(k, HALF_A_PAGE);
}

/* Every second page of a range is a mapping of its own, as far as the kernel allows; and some of these are given back. */
static size_t left;
static int leave_few_mappings(void)
{
    size_t bytes = (size_t)1 << 30, k = 0;
    char *all = mmap(NULL, bytes, PROT_READ | PROT_WRITE, MAP_PRIVATE | MAP_ANONYMOUS | MAP_NORESERVE, -1, 0);
    if (all == MAP_FAILED) return 0;
    while (k < bytes / PAGE_BYTES && mprotect(all + k * PAGE_BYTES, PAGE_BYTES, PROT_READ) == 0) k += 2;
    return left == 0 || munmap(all, left * PAGE_BYTES) == 0;
}

/* What follows on two nodes changes places: of every second two they are the first. */
static void exchange(uint64_t random)
{
    struct node *one = lists[(random >> 33) % LISTS], *other = lists[(random >> 13) % LISTS];
    for (uint64_t steps = (random >> 50) % 2 * ((random >> 51) % 50); steps > 0 && one->next && other->next; steps--) {
        one = one->next;
        other = other->next;
    }
    struct node *next = one->next;
    one->next = other->next;
    other->next = next;
}

static int limit_data(void) { return setrlimit(RLIMIT_DATA, &(struct rlimit){ (rlim_t)1 << 30, (rlim_t)1 << 30 }) == 0; }

static int (*hinder)(void) = leave_few_mappings;
static int loses_nothing(void)
{
    uint64_t random = 1;
    size_t count = 0;
    GC_INIT();
    GC_enable_incremental();
    make_lists();
    GC_gcollect();
    GC_start_incremental_collection();
    if (!hinder()) return 1;
    for (int k = 0; k < STEPS; k++) {
        random = random * 6364136223846793005u + 1442695040888963407u;
        exchange(random);
        ((struct node *)GC_malloc(sizeof(struct node)))->number = OTHERS;
    }
    for (int k = 0; k < LISTS; k++)
        for (const struct node *one = lists[k]; one; one = one->next, count++)
            if (one->number >= LENGTH) return 2;
    return count == NODES ? 0 : 3;
}

int main(void)
{
    static const size_t lefts[] = { 0, 1, 2, 3, 5, 200 };
    for (size_t k = 0; k < sizeof lefts / sizeof *lefts; k++) {
        left = lefts[k];
        CHECK(status_of(loses_nothing) == 0);
    }
    hinder = limit_data;
    CHECK(status_of(loses_nothing) == 0);
    return check_ends();
}
