/* What is freed: a small object comes back zeroed, in each size and kind, and once; nothing that was known of it is known of the next; and a
 * second free is noticed, wherever the object is by then. With handlers that request and free in the middle of it, beside collections. */
#define _POSIX_C_SOURCE 200809L
#define GC_THREADS
#include <pthread.h>
#include <signal.h>
#include <stdint.h>
#include <string.h>
#include <sys/time.h>
#include "gc.h"
#include "check.h"
#include "watch.h"

enum { SIZES = 2047, RUN = 64, MANY = 5 * RUN };

static int is_zero(const unsigned char *object, size_t bytes)
{
    size_t k = 0;
    while (k < bytes && object[k] == 0) k++;
    return k == bytes;
}

static void *made(size_t bytes, int is_atomic) { return is_atomic ? GC_malloc_atomic(bytes) : GC_malloc(bytes); }

/* The same object comes back within a run's length, with nothing in it; perhaps behind a collection, and with none of the run left. */
static int collects;
static void comes_back(size_t bytes, int is_atomic)
{
    void *old = made(bytes, is_atomic), *again = NULL;
    int zeros = 1;
    memset(old, 0x5A, bytes);
    if (collects) GC_gcollect();
    for (int k = 0; collects && k < RUN; k++) (void)made(bytes, is_atomic);
    GC_free(old);
    for (int k = 0; k < 2 * RUN && again != old; k++) {
        again = made(bytes, is_atomic);
        zeros &= is_zero(again, bytes);
    }
    CHECK(again == old && zeros);
}

static void each_size_comes_back(void)
{
    for (int is_atomic = 0; is_atomic < 2; is_atomic++)
        for (size_t bytes = 8; bytes <= SIZES; bytes++) comes_back(bytes, is_atomic);
}

static void old_ones_come_back(void)
{
    collects = 1;
    for (size_t bytes = 8; bytes <= SIZES; bytes += bytes / 2) comes_back(bytes, bytes % 3 == 0);
    collects = 0;
}

/* Each object has room for what was asked for, beside others of its size and of those near it. */
static void none_overlap(void)
{
    static unsigned char *seen[SIZES + 1];
    int wrong = 0;
    for (size_t bytes = 1; bytes <= SIZES; bytes++) memset(seen[bytes] = GC_malloc(bytes), (int)bytes, bytes);
    for (size_t bytes = 1; bytes <= SIZES; bytes++) {
        for (size_t k = 0; k < bytes; k++) wrong += seen[bytes][k] != (unsigned char)bytes;
        GC_free(seen[bytes]);
    }
    CHECK(wrong == 0);
}

/* So many at once are more than a run takes: each comes back at most once. */
static void none_comes_twice(size_t bytes)
{
    static char *seen[MANY], *again[MANY];
    int twice = 0;
    for (int k = 0; k < MANY; k++) memset(seen[k] = GC_malloc(bytes), k, bytes);
    for (int k = 0; k < MANY; k++) GC_free(seen[k]);
    for (int k = 0; k < MANY; k++) memset(again[k] = GC_malloc(bytes), 1, bytes);
    for (int k = 0; k < MANY; k++)
        for (int other = 0; other < k; other++) twice += again[k] == again[other];
    CHECK(twice == 0);
}

/* Of what is freed a thread holds some pages of each size and kind back at most: the others have nothing, once the cells between are swept. */
static void the_rest_is_free(void)
{
    enum { HELD = 4, PAGE = 4096, LARGE = 2000 };
    static char *all[MANY];
    size_t before = GC_get_memory_use();
    for (int k = 0; k < MANY; k++) memset(all[k] = GC_malloc(LARGE), 1, LARGE);
    CHECK(GC_get_memory_use() >= before + MANY / 2 * PAGE - HELD * PAGE);
    for (int k = 0; k < MANY; k++) GC_free(all[k]);
    CHECK(GC_get_memory_use() <= before + 2 * HELD * PAGE);
}

/* An object freed behind so many, with a collection between or none, and then once more. What the run had goes first, since the core frees what
 * was given to a run before the last collection. */
static char *old;
static int more;
static size_t each;
static void free_again(void)
{
    static char *others[MANY];
    for (int k = 0; k < RUN; k++) (void)GC_malloc(each);
    for (int k = 0; k < more; k++) others[k] = memset(GC_malloc(each), 1, each);
    old = memset(GC_malloc(each), 1, each);
    for (int k = 0; k < more; k++) GC_free(others[k]);
    GC_free(old);
    if (collects) GC_gcollect();
    GC_free(old);
}
static void second_frees(size_t bytes)
{
    static const int before[] = { 0, 1, 5, RUN / 2, MANY - 1 };
    each = bytes;
    for (collects = 0; collects < 2; collects++)
        for (size_t k = 0; k < sizeof before / sizeof *before; k++) {
            more = before[k];
            CHECK(stops_with(free_again, "GC_free of what"));
        }
}

/* What a thread has freed that has ended since. */
static void *made_and_freed[RUN];
static void *make_and_free(void *unused)
{
    for (int k = 0; k < RUN; k++) made_and_freed[k] = memset(GC_malloc(each), 1, each);
    for (int k = 0; k < RUN; k++) GC_free(made_and_freed[k]);
    return unused;
}
static void free_behind_a_thread(void)
{
    pthread_t thread;
    (void)GC_malloc(each);
    if (pthread_create(&thread, NULL, make_and_free, NULL) != 0 || pthread_join(thread, NULL) != 0) return;
    GC_free(made_and_freed[0]);
}
static void frees_behind_a_thread(size_t bytes)
{
    each = bytes;
    CHECK(stops_with(free_behind_a_thread, "GC_free of what isn't the beginning of an object"));
}

/* What isn't where an object begins. */
static void free_inside(void)
{
    old = memset(GC_malloc(each), 1, each);
    if (collects) GC_gcollect();
    GC_free(old + 16);
}
static void frees_inside(size_t bytes)
{
    each = bytes;
    for (collects = 0; collects < 2; collects++) CHECK(stops_with(free_inside, "GC_free of what isn't the beginning of an object"));
}

/* The thread has objects of a size that it wasn't given yet: of these, one that lies beside one which it was given. */
static void free_beside(void)
{
    for (int k = 0; k < RUN; k++) {
        char *next = (char *)memset(GC_malloc(each), 1, each) + GC_size(old);
        if (GC_base(next) == next && *next == 0) GC_free(next);
    }
}
static void frees_of_the_next(size_t bytes)
{
    each = bytes;
    old = GC_malloc(bytes);
    CHECK(stops_with(free_beside, "GC_free of what was freed before"));
}

/* What the program frees it was told of before is known no more. */
static int finalized;
static void count_it(void *object, void *data)
{
    (void)object;
    (void)data;
    finalized++;
}
static void what_was_known(void)
{
    static void *kept[RUN];
    GC_word others = 0;
    for (int k = 0; k < RUN; k++) {
        char *object = memset(GC_malloc(80), 1, 80);
        GC_register_finalizer(object, count_it, NULL, NULL, NULL);
        GC_free(object);
        if (k == 0) others = GC_get_non_gc_bytes();
    }
    for (int k = 0; k < RUN; k++) kept[k] = memset(GC_malloc(80), 1, 80);
    memset(kept, 0, sizeof kept);
    for (int k = 0; k < 3; k++) {
        GC_gcollect();
        GC_invoke_finalizers();
    }
    CHECK(finalized == 0);
    char *object = memset(GC_malloc_uncollectable(80), 1, 80);
    GC_free(object);
    CHECK(GC_get_non_gc_bytes() == others);
}

static void figures_go_on(void)
{
    size_t total = GC_get_total_bytes(), freed = GC_get_expl_freed_bytes_since_gc();
    for (int k = 0; k < 100; k++) GC_free(memset(GC_malloc(64), 1, 64));
    size_t asked = GC_get_total_bytes() - total;
    CHECK(asked >= 6400 && asked <= 100 * 96 + 4096);
    freed = GC_get_expl_freed_bytes_since_gc() - freed;
    CHECK(freed >= 6400 && freed <= 100 * 96);
}

/* What is freed counts as the words that the objects take, small ones and large ones, those that a run takes back and those that the core frees; and
 * what is asked for as no more, and no less than was asked for, but for what a run has. */
static void counts_as_it_lies(size_t bytes)
{
    enum { MANY = 300, IN_RUN = 4 * 4096 };
    static void *all[MANY];
    size_t taken = 0, asked = GC_get_total_bytes(), freed = GC_get_expl_freed_bytes_since_gc();
    for (int k = 0; k < MANY; k++) {
        all[k] = memset(GC_malloc(bytes), 1, bytes);
        taken += GC_size(all[k]);
    }
    asked = GC_get_total_bytes() - asked;
    CHECK(asked + IN_RUN >= MANY * bytes && asked <= taken + IN_RUN);
    for (int k = 0; k < MANY; k++) GC_free(all[k]);
    CHECK(GC_get_expl_freed_bytes_since_gc() - freed == taken);
}

/* Objects of the program and of a handler that comes at any moment, each with its number in all of its words. */
static uint64_t numbers, wrong;
static void fill(uint64_t *object, size_t words)
{
    uint64_t number = ++numbers;
    for (size_t k = 0; k < words; k++) {
        wrong += object[k] != 0;
        object[k] = ~number;
    }
}
static void drop(uint64_t *object, size_t words)
{
    for (size_t k = 1; k < words; k++) wrong += object[k] != object[0];
    GC_free(object);
}
static volatile int may_come;
static void handle(int number)
{
    static uint64_t *held[8];
    static unsigned turn;
    (void)number;
    if (!may_come) return;
    may_come = 0;
    uint64_t **at = &held[turn++ % 8], *next = GC_malloc(63);
    fill(next, 7);
    if (*at) drop(*at, 7);
    *at = next;
}

/* What a run had before a collection, or the core gives alone, the core frees: so the run is emptied first, and there is no collection
 * meanwhile; and of no object of this size more is known. For where one call of the core interrupts another the program is stopped. */
static void free_often(int rounds)
{
    GC_disable();
    for (int k = 0; k < RUN; k++) (void)GC_malloc(63);
    for (int k = 0; k < rounds; k++) {
        uint64_t *object = GC_malloc(63), *other = GC_malloc(63);
        fill(object, 7);
        fill(other, 7);
        drop(other, 7);
        may_come = 1;
        drop(object, 7);
        may_come = 0;
    }
    GC_enable();
}

static void beside_a_handler(void)
{
    struct sigaction action;
    struct itimerval often = { { 0, 50 }, { 0, 50 } }, never = { { 0, 0 }, { 0, 0 } };
    memset(&action, 0, sizeof action);
    action.sa_handler = handle;
    action.sa_flags = SA_RESTART;
    sigaction(SIGALRM, &action, NULL);
    setitimer(ITIMER_REAL, &often, NULL);
    for (int k = 0; k < 40; k++) {
        free_often(50000);
        GC_gcollect();
    }
    setitimer(ITIMER_REAL, &never, NULL);
    CHECK(wrong == 0);
}

/* Objects of all sizes that were freed wait to be given out. They are as many as are asked for between two collections, and bring none: 14 come, and
 * else 23 or more. */
static GC_word collections_beside_freed_ones(void)
{
    static const size_t sizes[] = { 16, 32, 48, 64, 96, 128, 192, 256, 384, 512, 768, 1024, 2000 };
    enum { KINDS = sizeof sizes / sizeof *sizes, ROUNDS = 20 };
    static void *all[2 * KINDS * RUN];
    GC_word count = GC_get_gc_no();
    for (int round = 0; round < ROUNDS; round++) {
        for (size_t k = 0; k < 2 * KINDS * RUN; k++) all[k] = made(sizes[k / RUN % KINDS], k / RUN / KINDS);
        for (size_t k = 0; k < 2 * KINDS * RUN; k++) GC_free(all[k]);
    }
    memset(all, 0, sizeof all);
    return GC_get_gc_no() - count;
}
static void bring_no_collections(void)
{
    GC_word divisor = GC_get_free_space_divisor();
    GC_set_free_space_divisor(300);
    GC_gcollect();
    GC_word count = collections_beside_freed_ones();
    CHECK(GC_is_incremental_mode() || count <= 18);
    GC_set_free_space_divisor(divisor);
}

int main(void)
{
    pid_t watcher = watch(300);
    GC_INIT();
    GC_free(memset(GC_malloc(16), 1, 16));
    GC_disable();
    the_rest_is_free();
    each_size_comes_back();
    none_overlap();
    none_comes_twice(48);
    none_comes_twice(600);
    figures_go_on();
    for (size_t bytes = 1; bytes < 20000; bytes += bytes / 3 + 1) counts_as_it_lies(bytes);
    GC_enable();
    old_ones_come_back();
    beside_a_handler();
    what_was_known();
    second_frees(40);
    second_frees(2000);
    frees_behind_a_thread(40);
    frees_behind_a_thread(600);
    frees_inside(40);
    frees_inside(2000);
    frees_of_the_next(40);
    frees_of_the_next(400);
    frees_of_the_next(900);
    bring_no_collections();
    kill(watcher, SIGKILL);
    return check_ends();
}
