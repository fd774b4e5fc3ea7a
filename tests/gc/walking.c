/* Walks over loaded objects whose function writes into the heap, beside stops of the world: who stops it waits for the walk, and the
 * walk for pages that are to be opened. -DWITHOUT_SYSCALLS where the library is the archive, without calls by which the kernel writes. */
#define _GNU_SOURCE
#define GC_THREADS
#include <fcntl.h>
#include <link.h>
#include <pthread.h>
#include <sched.h>
#include <stdint.h>
#include "gc.h"
#include "beside.h"
#include "check.h"
#include "watch.h"

extern void GC_suspend_thread(pthread_t thread);
extern void GC_resume_thread(pthread_t thread);
extern void GC_stop_world_external(void);
extern void GC_start_world_external(void);

/* Places on some 300 pages, each with the only pointer to a number. Walks move these, and have the kernel write beside them. */
enum { PLACES = 20000, MOVES = 60 };
static struct place { uint64_t *number; char text[56]; } *places[PLACES];
static _Atomic int walks, failed_reads;
static int file;

static struct place *any_place(uint32_t *random)
{
    *random = *random * 1664525 + 1013904223;
    return places[*random / 256 % PLACES];
}

static int move_some(struct dl_phdr_info *object, size_t size, void *random)
{
    (void)object;
    (void)size;
    for (int k = 0; k < MOVES; k++) {
        struct place *one = any_place(random), *other = any_place(random);
        uint64_t *moved = one->number;
        one->number = other->number;
        other->number = moved;
    }
#ifndef WITHOUT_SYSCALLS
    struct place *one = any_place(random);
    failed_reads += pread(file, one->text, 4, 0) != 4 || memcmp(one->text, "\177ELF", 4) != 0;
#endif
    return 0;
}

/* With rests, in which another thread gets the loader's lock. */
static void *walk(void *data)
{
    uint32_t random = 1;
    for (; !is_over; walks++) {
        dl_iterate_phdr(move_some, &random);
        rest(0.0001);
    }
    return data;
}

static void make_places(void)
{
    for (int k = 0; k < PLACES; k++) {
        places[k] = GC_malloc(sizeof **places);
        places[k]->number = GC_malloc_atomic(sizeof(uint64_t));
        *places[k]->number = (uint64_t)k;
    }
}

/* Each number is at one place still. */
static int are_all_there(void)
{
    static char seen[PLACES];
    int count = 0;
    for (int k = 0; k < PLACES; k++) {
        uint64_t number = *places[k]->number;
        if (number < PLACES && !seen[number]) count += seen[number] = 1;
    }
    return count == PLACES;
}

static void collect_beside(pthread_t walker)
{
    enum { CYCLES = 12, BETWEEN = 500 };
    GC_word end = GC_get_gc_no() + CYCLES;
    for (int k = 1; GC_get_gc_no() < end; k++) {
        GC_malloc(64);
        if (k % BETWEEN != 0) continue;
        GC_suspend_thread(walker);
        GC_resume_thread(walker);
        GC_stop_world_external();
        GC_start_world_external();
    }
}

static int walks_beside_collections(void)
{
    pthread_t walker;
    int least;
    file = open("/proc/self/exe", O_RDONLY);
    make_places();
    if (pthread_create(&walker, NULL, walk, NULL) != 0) return 1;
    while (walks < 2) sched_yield();
    least = walks + 10;
    collect_beside(walker);
    while (walks < least) sched_yield();
    is_over = 1;
    if (pthread_join(walker, NULL) != 0) return 2;
    return failed_reads ? 3 : !are_all_there();
}

static int in_full(void) { return walks_beside_collections(); }
static int in_small_steps(void)
{
    GC_enable_incremental();
    return walks_beside_collections();
}
static int beside_the_collectors_thread(void)
{
    GC_enable_collector_thread();
    return walks_beside_collections();
}

int main(void)
{
    GC_INIT();
    CHECK(ends_well(in_full, 20));
    CHECK(ends_well(in_small_steps, 20));
    CHECK(ends_well(beside_the_collectors_thread, 20));
    return check_ends();
}
