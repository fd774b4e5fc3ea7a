/* Kinds that the program makes, with functions that mark or descriptors in what an object points to; walks over all objects; and lists of objects
 * of a kind: against their documented meaning, and over bdwgc (OTHER) too. */
#define _GNU_SOURCE
#include <stdint.h>
#include "gc.h"
#include <gc/gc_gcj.h>
#include <gc/gc_mark.h>
#include <gc/gc_typed.h>
#include "check.h"
#include "gone.h"

/* A kind with a function, which marks the second word alone. */
static int marked;
static struct GC_ms_entry *mark_second(GC_word *object, struct GC_ms_entry *top, struct GC_ms_entry *limit, GC_word environment)
{
    marked += environment == 7;
    return object[1] ? GC_MARK_AND_PUSH((void *)object[1], top, limit, (void **)&object[1]) : top;
}
static uint64_t **of_kind[MANY];
static NOINLINE void make_of_kind(unsigned kind)
{
    for (int k = 0; k < MANY; k++) {
        of_kind[k] = GC_generic_malloc(3 * sizeof **of_kind, (int)kind);
        of_kind[k][1] = named(k);
        of_kind[k][2] = named(MANY + k);
    }
}
static NOINLINE void kinds(void)
{
    size_t bytes = 0;
    int is_right = 1;
    unsigned proc = GC_new_proc(mark_second);
    unsigned kind = GC_new_kind(GC_new_free_list(), GC_MAKE_PROC(proc, 7), 0, 1);
    CHECK(proc >= GC_RESERVED_MARK_PROCS && kind >= 4);
    make_of_kind(kind);
    CHECK(GC_get_kind_and_size(of_kind[0], &bytes) == (int)kind && bytes >= 24);
    collect();
    for (int k = 0; k < MANY; k++) is_right &= of_kind[k][1][0] == 1000 + (uint64_t)k;
    CHECK(is_right && count_gone(0, MANY) == 0 && marked >= MANY);
    CHECK(count_gone(MANY, 2 * MANY) >= MANY - 3);
    void *volatile nothing[3] = { GC_generic_malloc(0, (int)kind), GC_calloc_explicitly_typed(3, 0, GC_make_descriptor(&(GC_word){ 5 }, 3)),
                                  GC_calloc_explicitly_typed(0, 24, GC_make_descriptor(&(GC_word){ 5 }, 3)) };
    GC_gcollect();
    CHECK(GC_base(nothing[0]) && GC_base(nothing[1]) && GC_base(nothing[2]));
    for (int k = 0; k < MANY; k++) of_kind[k] = GC_realloc(of_kind[k], 100 * sizeof **of_kind);
    CHECK(GC_get_kind_and_size(of_kind[0], &bytes) == (int)kind && bytes >= 800);
    collect();
    for (int k = 0; k < MANY; k++) is_right &= of_kind[k][1][0] == 1000 + (uint64_t)k;
    CHECK(is_right && count_gone(0, MANY) == 0);
    for (int k = 0; k < MANY; k += 2) GC_free(of_kind[k]);
    memset(of_kind, 0, sizeof of_kind);
    collect();
    CHECK(count_gone(0, MANY) >= MANY - 3);
    forget_all();
}

/* What was known of an object goes with it: one that comes to lie there is of its own kind. */
static NOINLINE void make_and_drop(int kind)
{
    for (int k = 0; k < 2000; k++) (void)GC_generic_malloc(200, kind);
}
static NOINLINE void forgotten(void)
{
    int kind = (int)GC_new_kind(GC_new_free_list(), 8, 0, 1), others = 0;
    make_and_drop(kind);
    collect();
    for (int k = 0; k < 4000; k++) others += GC_get_kind_and_size(GC_malloc_atomic(200), NULL) != 0;
    CHECK(others == 0);
}

/* Objects whose descriptor stands in what their first word points to. */
struct type { GC_word other, descriptor; };
static uint64_t **described[MANY];
static NOINLINE void per_object(void)
{
    static struct type type;
    GC_word bits[1] = { 2 };
    type.descriptor = GC_make_descriptor(bits, 3);
    unsigned kind = GC_new_kind(GC_new_free_list(), ((GC_word)(-(GC_signed_word)sizeof(GC_word) - GC_INDIR_PER_OBJ_BIAS)) | GC_DS_PER_OBJECT, 0, 1);
    for (int k = 0; k < MANY; k++) {
        described[k] = GC_generic_malloc(3 * sizeof **described, (int)kind);
        described[k][0] = (uint64_t *)&type;
        described[k][1] = named(k);
        described[k][2] = named(MANY + k);
    }
    collect();
    CHECK(count_gone(0, MANY) == 0);
    CHECK(count_gone(MANY, 2 * MANY) >= MANY - 4);
    memset(described, 0, sizeof described);
    forget_all();
}

/* A descriptor to which the size is added counts from the object's end, which GC_size tells: it stands in the last word itself, or all are read but
 * the last two. What grows where it is is read as far. */
static uint64_t **ending[MANY];
static uint64_t ***last_of(uint64_t **object) { return (uint64_t ***)((char *)object + GC_size(object)) - 1; }
static NOINLINE void make_ending(int by_object, int all_but_two)
{
    static const size_t words[] = { 8, 4, 32, 49, 12, 6, 200, 400 };
    enum { SIZES = sizeof words / sizeof *words };
    GC_word bits[1] = { 8 }, second = GC_make_descriptor(bits, 4);
    for (int k = 0; k < MANY; k++) {
        size_t bytes = words[k % SIZES] * sizeof(uint64_t *);
        ending[k] = GC_generic_malloc(bytes, k % 2 ? by_object : all_but_two);
        uint64_t ***last = last_of(ending[k]);
        if (k % 2)
            *last = (uint64_t **)second;
        else
            ending[k] = GC_realloc(ending[k], GC_size(ending[k]) - 8);
        *(k % 2 ? &ending[k][3] : (uint64_t **)(last - 2)) = named(k);
    }
}
static NOINLINE void ends(void)
{
    int by_object = (int)GC_new_kind(GC_new_free_list(), (GC_word)-(GC_signed_word)sizeof(GC_word) | GC_DS_PER_OBJECT, 1, 1);
    int all_but_two = (int)GC_new_kind(GC_new_free_list(), (GC_word)-(GC_signed_word)(2 * sizeof(GC_word)) | GC_DS_LENGTH, 1, 1);
    make_ending(by_object, all_but_two);
    collect();
    CHECK(count_gone(0, MANY) == 0);
    memset(ending, 0, sizeof ending);
    collect();
    CHECK(count_gone(0, MANY) >= MANY - 4);
    forget_all();
}

/* A walk over all objects, lists of objects, and objects with a type. */
static uint64_t *wanted;
static int found, alike;
static void look(void *object, size_t bytes, void *data)
{
    found += wanted && object == (void *)wanted && bytes >= 700 && data == &found;
    alike += bytes >= 700 && bytes < 1000;
}
static NOINLINE void walk(void)
{
    found = alike = 0;
    GC_gcollect();
    GC_alloc_lock();
    GC_enumerate_reachable_objects_inner(look, &found);
    GC_alloc_unlock();
}
static NOINLINE void walks(void)
{
    int length = 0;
    void *list, *type = &length;
    walk();
    int before = alike;
    wanted = GC_malloc(700);
    walk();
    CHECK(found == 1 && alike == before + 1);
    GC_generic_malloc_many(32, 1, &list);
    for (; list && length < 10000; list = *(void **)list) length++;
    CHECK(length >= 1 && length < 10000);
    GC_init_gcj_malloc(0, NULL);
#ifndef OTHER
    void *volatile *volatile of_type = GC_gcj_malloc(40, type);
    CHECK(*of_type == type);
#else
    (void)type;
#endif
    void *volatile kept = GC_generic_malloc_uncollectable(30, 1);
    CHECK(GC_get_kind_and_size(kept, NULL) == 2 || GC_get_kind_and_size(kept, NULL) == 1);
    GC_free(kept);
    CHECK(GC_get_kind_and_size(GC_malloc(10), NULL) == 1 && GC_get_kind_and_size(GC_malloc_atomic(10), NULL) == 0);
}

/* Lists of pointer-free objects, which nothing but their place in a list names while they are made: each is given out once. */
static NOINLINE void lists_of_a_kind(void)
{
    enum { LISTS = 200, LONGEST = 300 };
    static uint64_t *held[LISTS][LONGEST];
    GC_word divisor = GC_get_free_space_divisor();
    int others = 0;
    GC_set_free_space_divisor(300);
    for (uint64_t n = 0; n < 20 * LISTS; n++) {
        uint64_t **all = held[n % LISTS], *list = NULL;
        for (size_t k = 0; k < LONGEST && all[k]; k++) others += all[k][1] != n - LISTS;
        memset(held[n % LISTS], 0, sizeof held[n % LISTS]);
        GC_malloc_atomic(16);
        GC_generic_malloc_many(2 * sizeof *list, 0, (void **)&list);
        for (size_t k = 0; k < LONGEST && list; list = (uint64_t *)(uintptr_t)list[0]) all[k++] = list;
        for (size_t k = 0; k < LONGEST && all[k]; k++) all[k][1] = n;
    }
    CHECK(others == 0);
    memset(held, 0, sizeof held);
    GC_set_free_space_divisor(divisor);
}

#ifndef OTHER
/* The list that the thread was given last is there until it is given another one, also where the program has but its first object; of large objects it
 * has one. */
static NOINLINE void hide_list(void *list)
{
    GC_generic_malloc_many(32, 0, list);
    int k = 0;
    for (void **one = *(void **)list; one && k < LONG; one = *one, k++) {
        hidden[k] = GC_HIDE_POINTER(one);
        GC_general_register_disappearing_link((void **)&hidden[k], one);
    }
}
static NOINLINE int length_of_large(void)
{
    int length = 0;
    void *list;
    GC_generic_malloc_many(100000, 1, &list);
    for (; list; list = *(void **)list) length++;
    return length;
}
static NOINLINE void last_lists(void)
{
    static void *first;
    int length = 0;
    hide_list(&first);
    while (length < LONG && hidden[length]) length++;
    CHECK(length > 1);
    collect();
    CHECK(count_gone(0, length) == 0);
    first = NULL;
    CHECK(length_of_large() == 1);
    collect();
    CHECK(count_gone(0, length) >= length - 3);
    forget_all();
}
#endif

int main(void)
{
    GC_INIT();
    if (getenv("INCREMENTAL")) GC_enable_incremental();
    kinds();
    lists_of_a_kind();
    forgotten();
    per_object();
    ends();
    walks();
#ifndef OTHER
    last_lists();
#endif
    return check_ends();
}
