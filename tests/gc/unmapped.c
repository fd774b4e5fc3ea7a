/* Memory of free pages is given back to the system, and nothing else is. The same source runs over bdwgc where that is installed, with
 * -DOTHER; what is said of libmpgc alone is left out then. */
#define _GNU_SOURCE
#include <stdbool.h>
#include <signal.h>
#include <stdint.h>
#include <sys/mman.h>
#include <sys/resource.h>
#include <sys/syscall.h>
#include <unistd.h>
#include "gc.h"
#include "check.h"

enum { COUNT = 6000, EACH = 3000, EVERY = 7, MEGABYTE = 1 << 20 };  /* an object fills a page of the heap, and every seventh stays */
static uint64_t **kept;
static uint64_t state = 88172645463325252ull;

static uint64_t next_random(void)
{
    state ^= state << 13;
    state ^= state >> 7;
    state ^= state << 17;
    return state;
}

static __attribute__((noinline)) void clear_stack(void)
{
    char old[20000];
    explicit_bzero(old, sizeof old);
}

static void fill(uint64_t *object, uint64_t number)
{
    for (int k = 0; k < EACH / 8; k++) object[k] = number * 31 + (uint64_t)k;
}
static bool is_filled(const uint64_t *object, uint64_t number)
{
    for (int k = 0; k < EACH / 8; k++)
        if (object[k] != number * 31 + (uint64_t)k) return false;
    return true;
}

/* Pages of objects of which few stay, atomic ones among them. No collection comes between. */
static __attribute__((noinline)) void make_all(void)
{
    GC_disable();
    for (int k = 0; k < COUNT; k++) {
        uint64_t *object = k % 2 ? GC_malloc(EACH) : GC_malloc_atomic(EACH);
        fill(object, (uint64_t)k);
        kept[k] = object;
    }
    GC_enable();
}
static void drop_most(void)
{
    for (int k = 0; k < COUNT; k++)
        if (k % EVERY != 0) kept[k] = NULL;
}
static bool are_there(void)
{
    for (int k = 0; k < COUNT; k += EVERY)
        if (!is_filled(kept[k], (uint64_t)k)) return false;
    return true;
}

/* Bytes of this process that are in memory. */
static size_t resident(void)
{
    unsigned long all = 0, in_memory = 0;
    FILE *file = fopen("/proc/self/statm", "r");
    if (!file) return 0;
    if (fscanf(file, "%lu %lu", &all, &in_memory) != 2) in_memory = 0;
    fclose(file);
    return in_memory * 4096;
}

/* New objects lie where others were, and are 0. */
static bool are_new(void)
{
    for (int k = 0; k < COUNT / 2; k++) {
        size_t bytes = 16 + next_random() % 6000;
        uint64_t *object = GC_malloc(bytes);
        for (size_t word = 0; word < bytes / 8; word++)
            if (object[word] != 0) return false;
        memset(object, 0x77, bytes);
    }
    return true;
}

static void at_once(void)
{
    make_all();
    drop_most();
    clear_stack();
    size_t before = resident();
    CHECK(before > (size_t)COUNT * EACH && GC_get_unmapped_bytes() == 0);
    GC_gcollect_and_unmap();
    GC_gcollect_and_unmap();
    GC_gcollect_and_unmap();
    CHECK(GC_get_unmapped_bytes() > 10 * MEGABYTE && before - resident() > 10 * MEGABYTE);
    CHECK(are_there());
    GC_word heap, unmapped;
    struct GC_prof_stats_s stats;
    GC_get_heap_usage_safe(&heap, NULL, &unmapped, NULL, NULL);
    GC_get_prof_stats(&stats, sizeof stats);
    CHECK(heap == GC_get_heap_size() && unmapped == GC_get_unmapped_bytes() && stats.unmapped_bytes == unmapped);
    CHECK(stats.heapsize_full == heap + unmapped && stats.free_bytes_full == GC_get_free_bytes() + unmapped);
#ifndef OTHER
    before = GC_get_unmapped_bytes();
    CHECK(are_new() && are_there() && GC_get_unmapped_bytes() < before);
#else
    CHECK(are_new() && are_there());
#endif
}

/* A page goes that was free in seven collections, and not before. */
static void after_some(void)
{
    make_all();
    drop_most();
    clear_stack();
    GC_gcollect();
    size_t before = GC_get_unmapped_bytes();
    for (int k = 0; k < 4; k++) GC_gcollect();
    CHECK(GC_get_unmapped_bytes() <= before);
    for (int k = 0; k < 5; k++) GC_gcollect();
    CHECK(GC_get_unmapped_bytes() > 10 * MEGABYTE);
    CHECK(are_there() && are_new() && are_there());
}

/* Where it is asked for, each collection gives back. */
static void by_force(void)
{
    GC_set_force_unmap_on_gcollect(1);
    make_all();
    drop_most();
    clear_stack();
    for (int k = 0; k < 3; k++) GC_gcollect();
    CHECK(GC_get_unmapped_bytes() > 10 * MEGABYTE && are_there());
    GC_set_force_unmap_on_gcollect(0);
}

/* Pages that come free in each collection and are used before the next one stay: else each of them would fault. */
static long faults(void)
{
    struct rusage all;
    getrusage(RUSAGE_SELF, &all);
    return all.ru_minflt;
}
static void make_many(int count)
{
    for (int k = 0; k < count; k++) kept[k % 100] = GC_malloc(5000);
}
static void used_again(void)
{
    make_many(10000);
    GC_word collections = GC_get_gc_no();
    long before = faults();
    make_many(40000);
    CHECK(GC_get_gc_no() >= collections + 20 && faults() < before + 4000);
}

#ifndef OTHER
/* The collector's thread gives back when it comes to it, and requests at once. */
static bool has_grown_to(size_t bytes)
{
    enum { WAITS = 20000 };
    int left = getenv("GC_COLLECTOR_THREAD") ? WAITS : 0;
    while (GC_get_unmapped_bytes() <= bytes && left-- > 0) usleep(1000);
    return GC_get_unmapped_bytes() > bytes;
}

/* By requests alone: collections come, and what they leave to do is done between requests. */
static _Atomic int made;
static void on_event(GC_EventType event) { made += event == GC_EVENT_END; }
static void between_requests(void)
{
    GC_set_on_collection_event(on_event);
    make_all();
    drop_most();
    clear_stack();
    GC_gcollect();
    size_t before = GC_get_unmapped_bytes();
    made = 0;
    for (int k = 0; k < 40 * MEGABYTE && made < 12; k++) GC_malloc(40);
    for (int k = 0; k < 3000; k++) GC_malloc(40);
    CHECK(made >= 12 && has_grown_to(before + 5 * MEGABYTE));
    CHECK(are_there());
    GC_set_on_collection_event(NULL);
}

/* A signal comes just before the system is told which pages go: what its handler is given there stays as it is. */
enum { GIVEN = COUNT / 4 };
static uint64_t *given[GIVEN];
static volatile sig_atomic_t comes;
int madvise(void *at, size_t bytes, int advice)
{
    if (comes) raise(SIGUSR1);
    return (int)syscall(SYS_madvise, at, bytes, advice);
}
static void be_given(int number)
{
    (void)number;
    if (!comes) return;
    comes = 0;
    for (uint64_t k = 0; k < GIVEN; k++) fill(given[k] = GC_malloc(EACH), k);
}
static void handler_comes(void)
{
    int are_filled = 1;
    make_all();
    drop_most();
    clear_stack();
    signal(SIGUSR1, be_given);
    comes = 1;
    GC_gcollect_and_unmap();
    CHECK(!comes && GC_get_unmapped_bytes() > 10 * MEGABYTE);
    for (uint64_t k = 0; k < GIVEN; k++) are_filled &= is_filled(given[k], k);
    CHECK(are_filled && are_there());
}

/* Never, where it is so wanted. */
static void start(void);
static int never(void)
{
    setenv("GC_UNMAP_THRESHOLD", "0", 1);
    start();
    make_all();
    drop_most();
    for (int k = 0; k < 12; k++) GC_gcollect();
    GC_gcollect_and_unmap();
    return GC_get_unmapped_bytes() == 0 && are_there() ? 0 : 1;
}
#endif

static void start(void)
{
    GC_INIT();
    if (getenv("INCREMENTAL")) GC_enable_incremental();
    kept = GC_malloc_uncollectable(COUNT * sizeof *kept);
}
#define IN_CHILD(work) \
    static int work##_in_child(void) \
    { \
        start(); \
        work(); \
        return failed != 0; \
    }
IN_CHILD(at_once)
IN_CHILD(after_some)
IN_CHILD(by_force)
IN_CHILD(used_again)
#ifndef OTHER
IN_CHILD(between_requests)
IN_CHILD(handler_comes)
#endif

int main(void)
{
    CHECK(status_of(at_once_in_child) == 0);
    CHECK(status_of(after_some_in_child) == 0);
    CHECK(status_of(by_force_in_child) == 0);
    CHECK(status_of(used_again_in_child) == 0);
#ifndef OTHER
    CHECK(status_of(between_requests_in_child) == 0);
    CHECK(status_of(handler_comes_in_child) == 0);
    CHECK(status_of(never) == 0);
#endif
    return check_ends();
}
