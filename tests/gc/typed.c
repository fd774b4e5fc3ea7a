/* Typed objects: which of their words keep something, by bitmaps, long ones, arrays, chains of them and of ordinary objects by turns, and words that
 * change places while cycles go on; over bdwgc (OTHER) too. */
#define _GNU_SOURCE
#include <stdint.h>
#include "gc.h"
#include <gc/gc_typed.h>
#include "check.h"
#include "gone.h"

/* Of each object the first word points, and the third one doesn't. */
struct pair { uint64_t *strong, other, *weak; };
static struct pair *pairs[MANY];
static NOINLINE void make_pairs(GC_descr type)
{
    for (int k = 0; k < MANY; k++) {
        pairs[k] = GC_malloc_explicitly_typed(sizeof *pairs[k], type);
        pairs[k]->strong = named(k);
        pairs[k]->weak = named(MANY + k);
    }
}
static NOINLINE void typed(void)
{
    GC_word bits[1] = { 0 };
    GC_set_bit(bits, GC_WORD_OFFSET(struct pair, strong));
    GC_descr type = GC_make_descriptor(bits, GC_WORD_LEN(struct pair));
    int is_right = 1;
    make_pairs(type);
    collect();
    for (int k = 0; k < MANY; k++) is_right &= pairs[k]->strong[0] == 1000 + (uint64_t)k;
    CHECK(is_right);
    CHECK(count_gone(0, MANY) == 0);
    CHECK(count_gone(MANY, 2 * MANY) >= MANY - 3);
    memset(pairs, 0, sizeof pairs);
    collect();
    CHECK(count_gone(0, MANY) >= MANY - 3);
    forget_all();
}

/* A bitmap of more than 64 words, every third of which points; and an array of typed elements. */
static uint64_t **wide;
static NOINLINE void make_wide(void)
{
    GC_word bits[3] = { 0 };
    for (int k = 0; k < 150; k += 3) GC_set_bit(bits, k);
    wide = GC_malloc_explicitly_typed(160 * sizeof *wide, GC_make_descriptor(bits, 150));
    for (int k = 0; k < 160; k++) wide[k] = named(k);
}
static NOINLINE void long_bitmap(void)
{
    int strong_gone = 0, weak_gone = 0, is_right = 1;
    make_wide();
    collect();
    for (int k = 0; k < 160; k++) {
        int is_strong = k < 150 && k % 3 == 0;
        strong_gone += is_strong && hidden[k] == 0;
        weak_gone += !is_strong && hidden[k] == 0;
        is_right &= !is_strong || wide[k][0] == 1000 + (uint64_t)k;
    }
    CHECK(strong_gone == 0 && is_right);
    CHECK(weak_gone >= 105);
    wide = NULL;
    forget_all();
}
static struct pair *array;
static NOINLINE void make_array(GC_descr type)
{
    array = GC_calloc_explicitly_typed(MANY, sizeof *array, type);
    for (int k = 0; k < MANY; k++) {
        array[k].strong = named(k);
        array[k].weak = named(MANY + k);
    }
}
static NOINLINE void typed_array(void)
{
    GC_word bits[1] = { 1 };
    int is_right = 1;
    make_array(GC_make_descriptor(bits, 3));
    collect();
    for (int k = 0; k < MANY; k++) is_right &= array[k].strong[0] == 1000 + (uint64_t)k;
    CHECK(is_right && count_gone(0, MANY) == 0);
    CHECK(count_gone(MANY, 2 * MANY) >= MANY - 3);
    array = NULL;
    forget_all();
}

/* Chains of typed objects, and of typed and ordinary ones by turns, that only the first one keeps: the newest or the oldest; with others between
 * that nothing keeps. */
struct link { uint64_t number; struct link *next; };
static struct link *chain;
static NOINLINE void make_chain(int is_mixed, int from_oldest)
{
    GC_word bits[1] = { 2 };
    GC_descr type = GC_make_descriptor(bits, 2);
    struct link *last = NULL;
    chain = NULL;
    for (uint64_t k = 0; k < 1000; k++) {
        struct link *one = is_mixed && k % 2 ? GC_malloc(sizeof *one) : GC_malloc_explicitly_typed(sizeof *one, type);
        (void)GC_malloc_explicitly_typed(sizeof *one, type);
        one->number = from_oldest ? 999 - k : k;
        one->next = from_oldest ? NULL : chain;
        if (from_oldest && last) last->next = one;
        if (!from_oldest || !last) chain = one;
        last = one;
    }
}
static NOINLINE void chains(void)
{
    for (int way = 0; way < 4; way++) {
        uint64_t left = 1000;
        make_chain(way & 1, way & 2);
        collect();
        for (struct link *one = chain; one && one->number == left - 1; one = one->next) left--;
        CHECK(left == 0);
    }
    chain = NULL;
}

/* The same chains, of typed objects of other lengths that are named by their inner words alone. */
static NOINLINE char *make_inner_chain(size_t bytes, int from_oldest)
{
    GC_word bits[1] = { 2 };
    GC_descr type = GC_make_descriptor(bits, 2);
    char *first = NULL, *last = NULL;
    for (uint64_t k = 0; k < 300; k++) {
        struct link *one = GC_malloc_explicitly_typed(bytes, type);
        char *inner = (char *)one + bytes / 2;
        one->number = from_oldest ? 299 - k : k;
        one->next = from_oldest ? NULL : (struct link *)(void *)first;
        if (from_oldest && last) ((struct link *)(void *)(last - bytes / 2))->next = (struct link *)(void *)inner;
        if (!from_oldest || !last) first = inner;
        last = inner;
    }
    return first;
}
static char *inner_chain;
static NOINLINE void inner_chains(size_t bytes)
{
    for (int from_oldest = 0; from_oldest < 2; from_oldest++) {
        uint64_t left = 300;
        inner_chain = make_inner_chain(bytes, from_oldest);
        collect();
        for (char *at = inner_chain; at && ((struct link *)(void *)(at - bytes / 2))->number == left - 1; left--)
            at = (char *)((struct link *)(void *)(at - bytes / 2))->next;
        CHECK(left == 0);
    }
    inner_chain = NULL;
}

/* Of many typed objects every third goes, and then half of the others is freed: the rest keep what is theirs. */
static struct pair *some[LONG];
static NOINLINE void make_some(void)
{
    GC_descr type = GC_make_descriptor(&(GC_word){ 1 }, 3);
    for (int k = 0; k < LONG; k++) {
        some[k] = GC_malloc_explicitly_typed(sizeof *some[k], type);
        some[k]->strong = named(k);
    }
}
static NOINLINE void leave_some(int (*goes)(int k), int frees)
{
    for (int k = 0; k < LONG; k++) {
        if (!some[k] || !goes(k)) continue;
        if (frees) GC_free(some[k]);
        some[k] = NULL;
    }
    collect();
}
static int is_third(int k) { return k % 3 == 0; }
static int is_even(int k) { return k % 2 == 0; }
static NOINLINE void some_go(void)
{
    int right = 0, gone = 0, stay = 0;
    make_some();
    leave_some(is_third, 0);
    leave_some(is_even, 1);
    for (int k = 0; k < LONG; k++) {
        stay += !is_third(k) && !is_even(k);
        right += some[k] && hidden[k] && some[k]->strong[0] == 1000 + (uint64_t)k;
        gone += !some[k] && !hidden[k];
    }
    CHECK(right == stay);
    CHECK(gone >= LONG - stay - 3);
    memset(some, 0, sizeof some);
    forget_all();
}

/* Words of typed objects, each with the only pointer to an object, change places while cycles go on: also those of objects that were read
 * before their cycle's end. */
enum { HOLDERS = 20000, MOVES = 300000 };
static struct link **holders;
static NOINLINE void make_holders(void)
{
    GC_word bits[1] = { 2 };
    GC_descr type = GC_make_descriptor(bits, 2);
    holders = GC_malloc(HOLDERS * sizeof *holders);
    for (uint64_t k = 0; k < HOLDERS; k++) {
        holders[k] = GC_malloc_explicitly_typed(sizeof *holders[k], type);
        holders[k]->next = GC_malloc(sizeof *holders[k]->next);
        holders[k]->next->number = k;
    }
}
static NOINLINE void moved(void)
{
    static char seen[HOLDERS];
    uint64_t random = 88172645463325252u, right = 0;
    make_holders();
    for (int k = 0; k < MOVES; k++) {
        random = random * 6364136223846793005u + 1442695040888963407u;
        struct link *one = holders[(random >> 33) % HOLDERS], *other = holders[(random >> 17) % HOLDERS], *next = one->next;
        one->next = other->next;
        other->next = next;
        ((struct link *)GC_malloc(sizeof *one))->number = HOLDERS;
    }
    for (int k = 0; k < HOLDERS; k++) {
        uint64_t number = holders[k]->next->number;
        right += number < HOLDERS && !seen[number];
        if (number < HOLDERS) seen[number] = 1;
    }
    CHECK(right == HOLDERS);
    holders = NULL;
}

/* One that points to itself is finalized where that is to be ignored, and what else it points to is there. */
struct ring { struct ring *self; uint64_t other, *strong; };
static int finalized, wrong;
static void look_at(void *object, void *data)
{
    const struct ring *one = object;
    finalized++;
    wrong += one->strong[0] != 1000 + (uintptr_t)data;
}
static NOINLINE void make_rings(void)
{
    GC_word bits[1] = { 5 };
    GC_descr type = GC_make_descriptor(bits, 3);
    for (uintptr_t k = 0; k < MANY; k++) {
        struct ring *one = GC_malloc_explicitly_typed(sizeof *one, type);
        one->self = one;
        one->strong = named((int)k);
        GC_register_finalizer_ignore_self(one, look_at, (void *)k, NULL, NULL);
    }
}
static NOINLINE void rings(void)
{
    make_rings();
    collect();
    CHECK(finalized >= MANY - 3 && finalized <= MANY && wrong == 0);
    forget_all();
}

/* One that becomes shorter where it is, and longer again, has nothing of what it had there. */
static void grown(void)
{
    enum { LONGER = 12, SHORTER = 9 };
    GC_word bits[1] = { 0x555 };
    uint64_t *object = GC_malloc_explicitly_typed(LONGER * sizeof *object, GC_make_descriptor(bits, LONGER)), *was = object;
    for (int k = 0; k < LONGER; k++) object[k] = 1;
    object = GC_realloc(object, SHORTER * sizeof *object);
    object = GC_realloc(object, LONGER * sizeof *object);
    CHECK(object == was);
    for (int k = 0; k < LONGER; k++) CHECK(object[k] == (k < SHORTER));
}

#ifndef OTHER
/* Elements that are added to an array of typed ones keep what they lead to, wherever it lies then. (bdwgc reads none of such an array any more.) */
static NOINLINE void make_longer(size_t many)
{
    enum { FEW = 40 };
    array = GC_calloc_explicitly_typed(FEW, sizeof *array, GC_make_descriptor(&(GC_word){ 1 }, 3));
    for (int k = 0; k < FEW; k++) array[k].strong = named(k);
    array = GC_realloc(array, many * sizeof *array);
    for (size_t k = FEW; k < many; k++) array[k].strong = named((int)k);
}
static NOINLINE void longer(void)
{
    for (size_t many = 42; many < 130; many += 12) {
        make_longer(many);
        collect();
        CHECK(count_gone(0, (int)many) == 0);
        array = NULL;
        forget_all();
    }
}
#endif

/* A cycle in small steps ends beside a program that makes typed objects and frees them at once, so that what is known of the others moves again and again. */
static void come_and_go(void)
{
    enum { WORDS = 200, MOST = 10000000 };
    static void *stays[20000];
    GC_word bits[1] = { 2 }, number = 0;
    GC_descr type = GC_make_descriptor(bits, 2);
    if (!GC_is_incremental_mode()) return;
    for (size_t k = 0; k < sizeof stays / sizeof *stays; k++) stays[k] = GC_malloc_explicitly_typed(WORDS * sizeof(GC_word), type);
    GC_gcollect();
    number = GC_get_gc_no();
    GC_start_incremental_collection();
    for (int k = 0; k < MOST && GC_get_gc_no() == number; k++) GC_free(GC_malloc_explicitly_typed(2 * sizeof(GC_word), type));
    CHECK(GC_get_gc_no() > number);
    memset(stays, 0, sizeof stays);
}

int main(void)
{
    GC_INIT();
    if (getenv("INCREMENTAL")) GC_enable_incremental();
    typed();
    long_bitmap();
    typed_array();
    chains();
    inner_chains(48);
    inner_chains(6000);
    some_go();
    moved();
    rings();
    grown();
#ifndef OTHER
    longer();
#endif
    come_and_go();
    return check_ends();
}
