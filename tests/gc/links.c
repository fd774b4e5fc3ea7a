/* Disappearing links against their documented meaning. The same source runs over bdwgc where that is installed, with -DOTHER; what is
 * said of libmpgc alone is left out then. */
#define _GNU_SOURCE
#include <stdint.h>
#include "gc.h"
#include "check.h"

#define NOINLINE __attribute__((noinline))
enum { ROOM = 64, MANY = 40 };

/* Hidden words, which keep nothing, in static memory; and objects that static memory keeps. */
static GC_hidden_pointer weak[2 * ROOM];
static void *strong[2 * ROOM];

static NOINLINE void clear_stack(void)
{
    char old[20000];
    explicit_bzero(old, sizeof old);
}

static void **word(int k) { return (void **)&weak[k]; }

/* The k-th word hides a new object, and is linked to it. */
static NOINLINE int links(int k, int is_kept)
{
    void *object = GC_malloc(40);
    weak[k] = GC_HIDE_POINTER(object);
    strong[k] = is_kept ? object : NULL;
    return GC_general_register_disappearing_link(word(k), object);
}

static void collects(void)
{
    clear_stack();
    GC_gcollect();
}

/* How many of the first words are cleared. A stray word on the stack may keep one or two objects. */
static int cleared(int most)
{
    int count = 0;
    for (int k = 0; k < most; k++) count += weak[k] == 0;
    return count;
}

/* Words are cleared once their objects are gone, and not while these are reached. */
static NOINLINE void objects_go(void)
{
    int registered = 0;
    for (int k = 0; k < MANY; k++) registered += links(k, k % 2) == GC_SUCCESS;
    CHECK(registered == MANY);
    collects();
    int is_right = 1;
    for (int k = 1; k < MANY; k += 2) is_right &= GC_REVEAL_POINTER(weak[k]) == strong[k];
    CHECK(is_right);
    CHECK(cleared(MANY) >= MANY / 2 - 2 && cleared(MANY) <= MANY / 2);
    memset(strong, 0, sizeof strong);
    collects();
    collects();
    CHECK(cleared(MANY) >= MANY - 2);
    for (int k = 0; k < MANY; k++)
        if (weak[k] == 0) CHECK(GC_unregister_disappearing_link(word(k)) == 0);
    for (int k = 0; k < MANY; k++) (void)GC_unregister_disappearing_link(word(k));
}

/* What is registered twice, moved or taken away. The last object counts. */
static NOINLINE void registrations(void)
{
    CHECK(links(0, 1) == GC_SUCCESS && links(1, 1) == GC_SUCCESS);
    CHECK(GC_general_register_disappearing_link(word(0), strong[1]) == GC_DUPLICATE);
    strong[0] = NULL;
    collects();
    CHECK(weak[0] != 0);
    CHECK(GC_move_disappearing_link(word(2), word(3)) == GC_NOT_FOUND);
    CHECK(GC_move_disappearing_link(word(0), word(1)) == GC_DUPLICATE);
    CHECK(GC_move_disappearing_link(word(0), word(0)) == GC_SUCCESS);
    weak[3] = 12345;
    CHECK(GC_move_disappearing_link(word(0), word(3)) == GC_SUCCESS && weak[3] == 12345);
    CHECK(GC_unregister_disappearing_link(word(0)) == 0);
    CHECK(GC_unregister_disappearing_link(word(1)) == 1 && GC_unregister_disappearing_link(word(1)) == 0);
    CHECK(GC_register_long_link(word(1), strong[1]) == GC_SUCCESS && GC_register_long_link(word(1), strong[1]) == GC_DUPLICATE);
    CHECK(GC_unregister_disappearing_link((void **)((char *)word(1) + 1)) == 0);
    CHECK(GC_unregister_disappearing_link(word(1)) == 0 && GC_move_long_link(word(1), word(4)) == GC_SUCCESS);
    CHECK(GC_unregister_long_link(word(1)) == 0 && GC_unregister_long_link(word(4)) == 1);
    CHECK(GC_unregister_disappearing_link(word(3)) == 1);
}

/* A word in a pointer-free object is linked, with the address as it is: it keeps nothing, and neither does the link keep what it lies in. */
static GC_hidden_pointer holders[MANY];
static NOINLINE void in_objects(int holders_stay)
{
    for (int k = 0; k < MANY; k++) {
        void **holder = GC_malloc_atomic(40);
        holder[1] = GC_malloc(40);
        CHECK(GC_general_register_disappearing_link(&holder[1], holder[1]) == GC_SUCCESS);
        holders[k] = GC_HIDE_POINTER(holder);
        strong[k] = holders_stay ? (void *)holder : holder[1];
    }
}

static NOINLINE void words_in_objects(void)
{
    int count = 0;
    in_objects(1);
    collects();
    for (int k = 0; k < MANY; k++) count += ((void **)strong[k])[1] == NULL;
    CHECK(count >= MANY - 2);
    memset(strong, 0, sizeof strong);
    collects();
#ifndef OTHER
    count = 0;
    for (int k = 0; k < MANY; k++) count += GC_base(GC_REVEAL_POINTER(holders[k])) == NULL;
    CHECK(count >= MANY - 2);
#endif
}

/* The words go, and their objects after them: nothing is written where the words were. What comes to lie there keeps its bytes. */
static char *later[4 * ROOM];
static NOINLINE void words_that_go(void)
{
    in_objects(0);
    collects();
    for (int k = 0; k < 4 * ROOM; k++) {
        later[k] = GC_malloc_atomic(40);
        memset(later[k], 0x5a, 40);
    }
    memset(strong, 0, sizeof strong);
    collects();
    collects();
    int is_right = 1;
    for (int k = 0; k < 4 * ROOM; k++)
        for (int i = 0; i < 40; i++) is_right &= later[k][i] == 0x5a;
    CHECK(is_right);
    memset(later, 0, sizeof later);
}

/* A field of an object that is cleared when that object itself is gone: nobody sees it, and its place is free. */
static NOINLINE void fields(void)
{
    for (int k = 0; k < MANY; k++) {
        void **object = GC_malloc(40);
        CHECK(GC_register_disappearing_link(&object[2]) == GC_SUCCESS);
    }
    collects();
    collects();
}

#ifndef OTHER
/* The words lie in objects that were freed, whose cells are the heap's own then. What comes to lie in them is there once. */
enum { HOLDERS = 60, AMONG = 9 };
static uint64_t *among[HOLDERS * AMONG], *since[HOLDERS * AMONG];
static NOINLINE void free_holders(void)
{
    for (int k = 0; k < HOLDERS * AMONG; k++) {
        among[k] = GC_malloc_atomic(100);
        memset(among[k], 0x5a, 100);
    }
    for (int k = 0; k < HOLDERS * AMONG; k += AMONG / 2) {
        for (int word = 0; word < 3; word++)
            CHECK(GC_general_register_disappearing_link((void **)(void *)&among[k][word], GC_malloc(40)) == GC_SUCCESS);
        GC_free(among[k]);
        among[k] = NULL;
    }
}
static NOINLINE void words_that_were_freed(void)
{
    int is_right = 1;
    free_holders();
    collects();
    for (int k = 0; k < HOLDERS * AMONG; k++) {
        since[k] = GC_malloc_atomic(100);
        for (int word = 0; word < 12; word++) since[k][word] = (uint64_t)k;
    }
    for (int k = 0; k < HOLDERS * AMONG; k++) {
        for (int word = 0; word < 12; word++) is_right &= since[k][word] == (uint64_t)k;
        for (int word = 0; among[k] && word < 12; word++) is_right &= among[k][word] == 0x5a5a5a5a5a5a5a5a;
    }
    CHECK(is_right);
    memset(among, 0, sizeof among);
    memset(since, 0, sizeof since);
}
#endif

/* In small steps a cycle's end clears too. */
static NOINLINE void in_small_steps(void)
{
    GC_enable_incremental();
    for (int k = 0; k < MANY; k++) (void)links(k, k % 2);
    clear_stack();
    GC_word count = GC_get_gc_no();
    GC_start_incremental_collection();
    for (int k = 0; k < 1000000 && GC_collect_a_little(); k++) continue;
    CHECK(GC_get_gc_no() > count);
    for (int k = 0; k < 3; k++) collects();
    CHECK(cleared(MANY) >= MANY / 2 - 2 && cleared(MANY) <= MANY / 2);
    for (int k = 0; k < MANY; k++) (void)GC_unregister_disappearing_link(word(k));
}

#ifndef OTHER
static int no_object;
static void to_no_object(void) { GC_general_register_disappearing_link(word(0), &no_object); }
static void of_no_word(void) { GC_general_register_disappearing_link((void **)((char *)weak + 4), GC_malloc(8)); }
static void in_no_object(void) { GC_register_disappearing_link(word(0)); }

/* What goes wrong is told, and an object that was freed has gone with the next collection. */
static NOINLINE void refusals(void)
{
    for (int k = 0; k < ROOM; k++) CHECK(links(k, 1) == GC_SUCCESS);
    CHECK(GC_general_register_disappearing_link(word(5), strong[6]) == GC_DUPLICATE);
    GC_free(strong[7]);
    strong[7] = NULL;
    CHECK(weak[7] != 0);
    collects();
    CHECK(weak[7] == 0 && links(7, 1) == GC_SUCCESS);
    for (int k = 0; k < ROOM; k++) CHECK(GC_unregister_disappearing_link(word(k)) == 1);
    CHECK(stops_with(to_no_object, "a disappearing link to what isn't an object"));
    CHECK(stops_with(of_no_word, "isn't the address of a word"));
    CHECK(stops_with(in_no_object, "lies in no object of the heap"));
}
#endif

/* Many at a time, of which every third one is kept. */
enum { LOTS = 20000 };
static NOINLINE void make_lots(GC_hidden_pointer *hidden, void **kept)
{
    int registered = 0;
    for (int k = 0; k < LOTS; k++) {
        void *object = GC_malloc(16);
        hidden[k] = GC_HIDE_POINTER(object);
        if (k % 3 == 0) kept[k] = object;
        registered += GC_general_register_disappearing_link((void **)&hidden[k], object) == GC_SUCCESS;
    }
    CHECK(registered == LOTS);
}
static NOINLINE void without_a_limit(void)
{
    static GC_hidden_pointer hidden[LOTS];
    static void *kept[LOTS];
    int gone = 0, is_right = 1;
    make_lots(hidden, kept);
    collects();
    collects();
    for (int k = 0; k < LOTS; k++) {
        gone += hidden[k] == 0;
        if (k % 3 == 0) is_right &= GC_REVEAL_POINTER(hidden[k]) == kept[k];
    }
    CHECK(is_right);
    CHECK(gone >= LOTS / 3 * 2 - 20);
    memset(kept, 0, sizeof kept);
    collects();
    collects();
    gone = 0;
    for (int k = 0; k < LOTS; k++) gone += hidden[k] == 0;
    CHECK(gone >= LOTS - 20);
}

/* Links to what has gone bring a collection, also where the heap has much room. */
static int bring_a_collection(void)
{
    static GC_hidden_pointer hidden[LOTS];
    GC_INIT();
    GC_expand_hp(1 << 26);
    GC_word before = GC_get_gc_no();
    for (int k = 0; k < LOTS; k++) {
        void *object = GC_malloc(16);
        hidden[k] = GC_HIDE_POINTER(object);
        GC_general_register_disappearing_link((void **)&hidden[k], object);
    }
    return GC_get_gc_no() > before ? 0 : 1;
}

int main(void)
{
    CHECK(status_of(bring_a_collection) == 0);
    GC_INIT();
    without_a_limit();
#ifndef OTHER
    refusals(); /* while no stray word keeps an object, and with it a link */
#endif
    objects_go();
    registrations();
    words_in_objects();
    words_that_go();
#ifndef OTHER
    words_that_were_freed();
#endif
    fields();
    in_small_steps();
    return check_ends();
}
