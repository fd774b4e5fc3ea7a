/* How many collections come while a heap grows by a divisor that leaves it little room, where objects are freed again and again, in whatever order,
 * and where large ones are beside a heap that lives. The same source runs over bdwgc where that is installed. */
#define _GNU_SOURCE
#define GC_THREADS
#include <pthread.h>
#include <signal.h>
#include <stdint.h>
#include "gc.h"
#include "check.h"

#define NOINLINE __attribute__((noinline))
#define MEGABYTE ((size_t)1 << 20)

struct node { struct node *next; size_t filled[6]; }; /* with the byte past the end of 64 bytes */
static struct node *kept;

static NOINLINE void keep(size_t bytes)
{
    for (size_t done = 0; done < bytes; done += 64) {
        struct node *node = GC_malloc(sizeof *node);
        node->next = kept;
        kept = node;
    }
}

static NOINLINE void drop(size_t bytes)
{
    for (size_t done = 0; done < bytes; done += 64) GC_reachable_here(GC_malloc(sizeof *kept));
}

static GC_word count(void) { return GC_get_gc_no(); }

/* Whatever the divisor, a heap that is full grows by 16 pages at least, and as much is asked for between two cycles in small steps: 128 collections
 * come while it grows, and by one page 300. */
static NOINLINE void one_for_16_pages(void (*ask)(size_t bytes), GC_word most)
{
    GC_word before = count(), divisor = GC_get_free_space_divisor();
    GC_set_free_space_divisor(300);
    ask(8 * MEGABYTE);
    GC_set_free_space_divisor(divisor);
    CHECK(count() - before <= most);
}

/* What was asked for and freed again makes neither more of what is asked for nor less of what is kept: behind each collection less is asked for than
 * brings the next one. */
static NOINLINE void none_for_what_is_freed(void)
{
    GC_word came = 0;
    for (int round = 0; round < 10; round++) {
        GC_gcollect();
        GC_word before = count();
        GC_free(GC_malloc_atomic(16 * MEGABYTE));
        drop(4 * MEGABYTE);
        came += count() - before;
    }
    CHECK(came == 0);
}

/* What is freed again and again leaves no room of its own, whatever it takes more than was asked for: the garbage that comes behind it is
 * collected. */
static NOINLINE void free_each(size_t bytes, size_t times)
{
    enum { TOGETHER = 1000 };
    static void *all[TOGETHER];
    for (; times > 0; times--) {
        for (int k = 0; k < TOGETHER; k++) all[k] = GC_malloc_atomic(bytes);
        for (int k = 0; k < TOGETHER; k++) GC_free(all[k]);
    }
}
static NOINLINE void frees_leave_no_room(size_t bytes)
{
    for (size_t done = 0; done < 1000 * MEGABYTE; done += bytes) GC_free(GC_malloc_atomic(bytes));
    if (bytes < 1000) free_each(bytes, 1000);
    GC_word before = count();
    for (size_t done = 0; done < 100 * MEGABYTE; done += bytes) GC_reachable_here(GC_malloc_atomic(bytes));
    CHECK(count() - before > 1);
}

/* As much is freed as is asked for: then hardly a collection comes, but those while the heap grows, however often that is done. */
enum { WINDOW = 10000, ROUNDS = 200, MOST = 9, MOST_IN_GROWTH = 17 };
static void *window[WINDOW];
static size_t next_random(void)
{
    static uint64_t state = 88172645463325252u;
    state ^= state << 13;
    state ^= state >> 7;
    return (size_t)(state ^= state << 17);
}
struct sizes { size_t least, most; };
static void *make(struct sizes of)
{
    char *made = GC_malloc(of.least + next_random() % (of.most - of.least + 1));
    *made = 1;
    return made;
}
static void free_all(void)
{
    for (int k = 0; k < WINDOW; k++) GC_free(window[k]);
    memset(window, 0, sizeof window);
}
static NOINLINE void in_order(struct sizes of)
{
    for (int k = 0; k < WINDOW; k++) window[k] = make(of);
    free_all();
}
static NOINLINE void in_reverse(struct sizes of)
{
    for (int k = WINDOW; k-- > 0;) window[k] = make(of);
    free_all();
}
static NOINLINE void at_random(struct sizes of)
{
    for (int k = 0; k < WINDOW; k++) {
        void **at = &window[next_random() % WINDOW];
        GC_free(*at);
        *at = make(of);
    }
}
static NOINLINE void by_growth(struct sizes of)
{
    for (int k = 0; k < WINDOW; k++) {
        void *grows = NULL;
        for (size_t bytes = of.least; bytes <= of.most; bytes += bytes / 10 + 1) grows = GC_realloc(grows, bytes);
        GC_free(grows);
    }
}
/* What is there at once becomes more and more. In small steps a cycle that began at the most may end where all is freed, and brings no other. */
static NOINLINE void by_more_and_more(struct sizes of)
{
    for (int most = WINDOW / 40; most <= WINDOW; most += most / 50) {
        for (int k = 0; k < most; k++) window[k] = make(of);
        free_all();
    }
}
/* Each in a heap of its own, that begins. */
static struct { void (*shape)(struct sizes of); struct sizes of; int rounds, most; } one;
static int hardly_collects(void)
{
    GC_INIT();
    for (int k = 0; k < one.rounds; k++) one.shape(one.of);
    if (count() <= (GC_word)one.most) return 0;
    printf("%lu collections, for %zu to %zu bytes\n", (unsigned long)count(), one.of.least, one.of.most);
    return 1;
}
static void check_shape(void (*shape)(struct sizes of), struct sizes of, int rounds)
{
    one.shape = shape;
    one.of = of;
    one.rounds = rounds;
    one.most = shape == by_more_and_more ? MOST_IN_GROWTH : MOST;
    CHECK(status_of(hardly_collects) == 0);
}
static void hardly_one_for_all_that_is_freed(void)
{
    static const struct sizes sizes[] = { { 1, 8 }, { 17, 24 }, { 33, 40 }, { 100, 120 }, { 500, 500 }, { 1030, 2040 } };
    for (size_t k = 0; k < sizeof sizes / sizeof *sizes; k++) {
        int rounds = sizes[k].most > 1000 ? ROUNDS / 4 : ROUNDS;
        check_shape(in_order, sizes[k], rounds);
        check_shape(in_reverse, sizes[k], rounds);
        check_shape(at_random, sizes[k], rounds);
    }
    check_shape(by_growth, (struct sizes){ 16, 2000 }, 1);
    check_shape(by_more_and_more, (struct sizes){ 1030, 2040 }, 1);
}

/* .. nor where the heap is looked at just when all is freed that the last collection kept. */
static int none_behind_a_low(void)
{
    enum { LOWS = 5 };
    static const struct sizes of = { 2000, 2040 };
    GC_word came = 0;
    GC_INIT();
    for (int k = 0; k < LOWS; k++) {
        for (int at = 0; at < WINDOW; at++) window[at] = make(of);
        GC_gcollect();
        GC_word before = count();
        free_all();
        drop(MEGABYTE);
        in_order(of);
        came += count() - before;
    }
    return came == 0 ? 0 : 1;
}

/* A heap that became small keeps most of its room for a while, so that hardly a collection comes while it grows again: else one comes for each 16 pages.
 * In small steps cycles begin before the room is filled. */
static void make_all(void)
{
    static const struct sizes of = { 1000, 1000 };
    for (int k = 0; k < WINDOW; k++) window[k] = make(of);
}
static int few_behind_a_low_of_what_is_kept(void)
{
    enum { FEW = 40 };
    GC_INIT();
    GC_set_free_space_divisor(300);
    make_all();
    memset(window, 0, sizeof window);
    GC_gcollect();
    GC_word before = count();
    make_all();
    return count() - before <= FEW || GC_is_incremental_mode() ? 0 : 1;
}

/* .. but not where the program asks for its memory to be given back. bdwgc takes what it gave back again before it collects. */
#ifndef OTHER
static int soon_where_memory_was_given_back(void)
{
    GC_INIT();
    GC_set_free_space_divisor(300);
    make_all();
    memset(window, 0, sizeof window);
    GC_gcollect_and_unmap();
    GC_word before = count();
    drop(4 * MEGABYTE);
    return count() - before >= 4 ? 0 : 1;
}
#endif

/* None comes for what threads that end were given in advance. */
static void *ask_and_free(void *data)
{
    for (size_t bytes = 8; bytes <= 2000; bytes += bytes / 2) GC_free(memset(GC_malloc(bytes), 1, bytes));
    return data;
}
static int none_for_threads(void)
{
    enum { THREADS = 1000 };
    int right = 0;
    GC_INIT();
    for (int k = 0; k < THREADS; k++) {
        pthread_t thread;
        right += pthread_create(&thread, NULL, ask_and_free, NULL) == 0 && pthread_join(thread, NULL) == 0;
    }
    return right == THREADS && count() <= 2 ? 0 : 1;
}

/* Garbage beside what is freed is collected, whatever sizes both have: the heap doesn't grow by it. */
static NOINLINE void is_kept_small(size_t garbage, size_t freed)
{
    enum { TOGETHER = 1000 };
    int k = 0;
    for (size_t done = 0; done < 40 * MEGABYTE; done += garbage, k++) {
        void **at = &window[k % TOGETHER];
        GC_free(*at);
        *at = make((struct sizes){ freed, freed });
        GC_reachable_here(GC_malloc_atomic(garbage));
    }
    free_all();
    CHECK(GC_get_heap_size() < 40 * MEGABYTE);
}

int main(void)
{
    hardly_one_for_all_that_is_freed();
    CHECK(status_of(none_behind_a_low) == 0);
    CHECK(status_of(few_behind_a_low_of_what_is_kept) == 0);
#ifndef OTHER
    CHECK(status_of(soon_where_memory_was_given_back) == 0);
#endif
    CHECK(status_of(none_for_threads) == 0);
    GC_INIT();
    one_for_16_pages(drop, 200);
    one_for_16_pages(keep, 140);
    none_for_what_is_freed();
    frees_leave_no_room(528);
    frees_leave_no_room(4096);
    frees_leave_no_room(9000);
    is_kept_small(24, 1040);
    is_kept_small(500, 500);
    is_kept_small(2040, 1040);
    return check_ends();
}
