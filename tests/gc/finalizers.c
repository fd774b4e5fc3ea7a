/* What finalizers do, against their documented meaning, and over bdwgc (OTHER) too. */
#define _GNU_SOURCE
#include <stdint.h>
#include "gc.h"
#include "check.h"

enum { MANY = 50 };
struct object { struct object *to, *other; uint64_t number; };

static int order[1000], count;
static struct object *kept[1000];

static void note(void *object, void *data)
{
    order[count++] = (int)((struct object *)object)->number;
    (void)data;
}
static void keep(void *object, void *data) { kept[(uintptr_t)data] = object; }

/* The stack below is written over, so that no old pointer lies there. */
static __attribute__((noinline)) void clear_stack(void)
{
    volatile char room[20000];
    for (size_t k = 0; k < sizeof room; k++) room[k] = 0;
}
static void collect(void)
{
    for (int k = 0; k < 3; k++) {
        clear_stack();
        GC_gcollect();
        GC_invoke_finalizers();
    }
}

static struct object *make(uint64_t number, struct object *to)
{
    struct object *made = GC_malloc(sizeof *made);
    made->number = number;
    made->to = to;
    return made;
}

/* A chain of MANY: the first is reached by nothing, each other by the one before. A topological order: each by its own collection, also of those
 * that go only where nothing else leads to them. */
static __attribute__((noinline)) void make_chain(int by)
{
    struct object *next = NULL;
    for (int k = MANY; k > 0; k--) {
        next = make((uint64_t)k, next);
        if (by == 0) GC_register_finalizer(next, note, NULL, NULL, NULL);
        if (by == 1) GC_register_finalizer_no_order(next, note, NULL, NULL, NULL);
        if (by == 2 && k % 2) GC_register_finalizer_unreachable(next, note, NULL, NULL, NULL);
        if (by == 2 && k % 2 == 0) GC_register_finalizer(next, note, NULL, NULL, NULL);
    }
}
static void chain_goes_in_order(int by)
{
    int is_right = 1;
    count = 0;
    make_chain(by);
    for (int k = 0; k < 3 * MANY && count < MANY; k++) {
        clear_stack();
        GC_gcollect();
        GC_invoke_finalizers();
    }
    for (int k = 1; k < count; k++) is_right &= order[k] == order[k - 1] + 1;
    CHECK(count >= MANY - 2);
    CHECK(is_right);
}

/* Without an order all go at once. */
static void chain_goes_at_once(void)
{
    count = 0;
    make_chain(1);
    clear_stack();
    GC_gcollect();
    GC_invoke_finalizers();
#ifndef NO_MARKED_AT
    CHECK(count >= MANY - 2);
#endif
    for (int k = 0; k < MANY; k++) collect();
    CHECK(count >= MANY - 2);
}

/* What is reached stays, and what a finalizer keeps is there with all that it leads to. */
static __attribute__((noinline)) void make_kept(void)
{
    for (uintptr_t k = 0; k < MANY; k++) {
        struct object *object = make(k, make(1000 + k, make(2000 + k, NULL)));
        GC_register_finalizer(object, keep, (void *)k, NULL, NULL);
    }
}
static void finalizers_keep(void)
{
    int found = 0, is_right = 1;
    memset(kept, 0, sizeof kept);
    make_kept();
    collect();
    for (int k = 0; k < 20000; k++) make(9, NULL);
    collect();
    for (uint64_t k = 0; k < MANY; k++) {
        if (!kept[k]) continue;
        found++;
        is_right &= kept[k]->number == k && kept[k]->to->number == 1000 + k && kept[k]->to->to->number == 2000 + k;
    }
    CHECK(found >= MANY - 2);
    CHECK(is_right);
    memset(kept, 0, sizeof kept);
    collect();
}

/* So many were noted with a number from this one on: one that an old word of the stack had kept until now has a lower one. */
static int noted_from(int first)
{
    int many = 0;
    for (int k = 0; k < count; k++) many += order[k] >= first;
    return many;
}

enum { REACHED = 10000, TOLD = 20000 };
static struct object *reached[MANY];
static void reached_stay(void)
{
    count = 0;
    for (int k = 0; k < MANY; k++) {
        reached[k] = make((uint64_t)(REACHED + k), NULL);
        GC_register_finalizer(reached[k], note, NULL, NULL, NULL);
    }
    collect();
    CHECK(noted_from(REACHED) == 0);
    for (int k = 0; k < MANY; k += 2) reached[k] = NULL;
    collect();
    CHECK(noted_from(REACHED) >= MANY / 2 - 2 && noted_from(REACHED) <= MANY / 2);
    memset(reached, 0, sizeof reached);
    collect();
    CHECK(noted_from(REACHED) >= MANY - 2 && noted_from(REACHED) <= MANY);
}

/* A ring is never finalized in order, but if its pointers are to itself and ignored. */
static __attribute__((noinline)) void make_rings(void)
{
    for (int k = 0; k < MANY; k++) {
        struct object *a = make(1, NULL), *b = make(2, a);
        a->to = b;
        GC_register_finalizer(a, note, NULL, NULL, NULL);
        GC_register_finalizer(b, note, NULL, NULL, NULL);
        struct object *self = make(3, NULL);
        self->to = self;
        GC_register_finalizer(self, note, NULL, NULL, NULL);
        struct object *ignored = make(4, NULL);
        ignored->to = ignored;
        GC_register_finalizer_ignore_self(ignored, note, NULL, NULL, NULL);
    }
}
static void rings(void)
{
    int others = 0, fours = 0;
    GC_set_warn_proc(GC_ignore_warn_proc);
    count = 0;
    make_rings();
    collect();
    for (int k = 0; k < count; k++) {
        fours += order[k] == 4;
        others += order[k] != 4;
    }
    CHECK(others == 0);
    CHECK(fours >= MANY - 2);
}

/* What is registered is told, changed and taken away. */
static void registering(void)
{
    GC_finalization_proc old = keep;
    void *old_data = &count;
    struct object *volatile object = make(TOLD, NULL);
    static int local;
    GC_register_finalizer(object, note, &local, &old, &old_data);
    CHECK(old == NULL && old_data == NULL);
    GC_register_finalizer(object, keep, &count, &old, &old_data);
    CHECK(old == note && old_data == &local);
    GC_register_finalizer(object, NULL, NULL, &old, &old_data);
    CHECK(old == keep && old_data == &count);
    GC_register_finalizer(object, NULL, NULL, &old, &old_data);
    CHECK(old == NULL && old_data == NULL);
    count = 0;
    object = NULL;
    collect();
    CHECK(noted_from(TOLD) == 0);
}

/* The data that a finalizer is given is kept. */
static void note_data(void *object, void *data)
{
    (void)object;
    order[count++] = (int)((struct object *)data)->number;
}
static __attribute__((noinline)) void make_with_data(void)
{
    for (int k = 0; k < MANY; k++) GC_register_finalizer(make(1, NULL), note_data, make(100 + (uint64_t)k, NULL), NULL, NULL);
}
static void data_is_kept(void)
{
    int is_right = 1;
    count = 0;
    make_with_data();
    for (int k = 0; k < 20000; k++) make(9, NULL);
    collect();
    for (int k = 0; k < 20000; k++) make(9, NULL);
    collect();
    CHECK(count >= MANY - 2);
    for (int k = 0; k < count; k++) is_right &= order[k] >= 100 && order[k] < 100 + MANY;
    CHECK(is_right);
}

/* Pointer-free objects. */
static void count_one(void *object, void *data)
{
    (void)object;
    ++*(int *)data;
}
static int atomics;
static __attribute__((noinline)) void make_atomics(void)
{
    for (int k = 0; k < MANY; k++) {
        char *text = GC_malloc_atomic(30);
        text[0] = 1;
        GC_register_finalizer(text, count_one, &atomics, NULL, NULL);
    }
}
static void atomic_ones_go(void)
{
    make_atomics();
    collect();
#ifdef NO_MARKED_AT
    CHECK(atomics == 0);
#else
    CHECK(atomics >= MANY - 2);
#endif
}

/* A program may name its objects with a tag in the lowest bits: its function is told the same name. */
enum { TAG = 1 };
static int tagged, mistagged;
static void note_tagged(void *named, void *data)
{
    struct object *object = (void *)((char *)named - TAG);
    tagged++;
    mistagged += (uintptr_t)object % 16 != 0 || object->number != (uintptr_t)data;
}
static __attribute__((noinline)) void make_tagged(void)
{
    GC_finalization_proc was;
    void *data;
    for (uintptr_t k = 0; k < MANY; k++)
        GC_register_finalizer_no_order((char *)make(k, NULL) + TAG, note_tagged, (void *)k, NULL, NULL);
    char *named = (char *)make(7, NULL) + TAG;
    GC_register_finalizer_no_order(named, note_tagged, &tagged, NULL, NULL);
    GC_register_finalizer_no_order(named, NULL, NULL, &was, &data);
    CHECK(was == note_tagged && data == &tagged);
}
static void tagged_ones_go(void)
{
    make_tagged();
    collect();
    CHECK(tagged >= MANY - 2 && tagged <= MANY && mistagged == 0);
}

/* Short links go before the finalizer, long ones after. */
static void *short_link[MANY], *long_link[MANY];
static int short_was_there, long_was_there;
static void look(void *object, void *data)
{
    (void)object;
    short_was_there += short_link[(uintptr_t)data] != NULL;
    long_was_there += long_link[(uintptr_t)data] != NULL;
}
static __attribute__((noinline)) void make_linked(void)
{
    for (uintptr_t k = 0; k < 30; k++) {
        struct object *object = make(1, NULL);
        GC_register_finalizer(object, look, (void *)k, NULL, NULL);
        short_link[k] = (void *)GC_HIDE_POINTER(object);
        long_link[k] = (void *)GC_HIDE_POINTER(object);
        GC_general_register_disappearing_link(&short_link[k], object);
        GC_register_long_link(&long_link[k], object);
    }
}
static void links_go(void)
{
    int left = 0;
    make_linked();
    clear_stack();
    GC_gcollect();
    GC_invoke_finalizers();
#ifndef NO_MARKED_AT
    CHECK(short_was_there <= 2);
#endif
    CHECK(long_was_there >= 28);
    collect();
    for (int k = 0; k < 30; k++) left += long_link[k] != NULL;
    CHECK(left <= 2);
}

/* On demand, and a notifier. */
static int notified;
static void notify(void) { notified++; }
static __attribute__((noinline)) void make_some(void)
{
    for (int k = 0; k < 10; k++) GC_register_finalizer(make(7, NULL), note, NULL, NULL, NULL);
}
static void on_demand(void)
{
    count = 0;
    GC_set_finalize_on_demand(1);
    GC_set_finalizer_notifier(notify);
    make_some();
    clear_stack();
    GC_gcollect();
    for (int j = 0; j < 3; j++) {
        for (int k = 0; k < 5000; k++) make(1, NULL);
        GC_gcollect();
    }
    CHECK(count == 0);
    CHECK(notified >= 1);
    CHECK(GC_should_invoke_finalizers());
    CHECK(GC_invoke_finalizers() >= 8);
    CHECK(count >= 8);
    for (int k = 0; k < count; k++) CHECK(order[k] == 7);
    CHECK(!GC_should_invoke_finalizers());
    GC_set_finalizer_notifier(NULL);
    GC_set_finalize_on_demand(0);
    count = 0;
    make_some();
    clear_stack();
    GC_gcollect();
    for (int k = 0; k < 5000; k++) make(1, NULL);
    CHECK(count >= 8);
}

/* Finalizers that make requests, and register anew. */
static int revived;
static void revive(void *object, void *data)
{
    for (int k = 0; k < 100; k++) make(1, NULL);
    if (++revived < 400) GC_register_finalizer(object, revive, data, NULL, NULL);
}
static __attribute__((noinline)) void make_revived(void)
{
    for (int k = 0; k < 10; k++) GC_register_finalizer(make(7, NULL), revive, NULL, NULL, NULL);
}
static void again_and_again(void)
{
    make_revived();
    for (int k = 0; k < 60 && revived < 400; k++) {
        clear_stack();
        GC_gcollect();
    }
    CHECK(revived >= 400);
}

static void start(void)
{
    GC_INIT();
    if (getenv("INCREMENTAL")) GC_enable_incremental();
}

#ifndef OTHER
/* A function that a collection calls registers others, in the middle of another registration: of so many, each in that of the one before. In a
 * heap of its own, whose tables begin. */
enum { BEFORE = 63, DEEP = 40 };
static int depth, is_registering;
static struct object *earlier[BEFORE + DEEP];
static void register_within(void)
{
    int mine = depth;
    if (mine == DEEP || !is_registering) return;
    depth++;
    earlier[BEFORE + mine] = make(5, NULL);
    while (depth <= mine + 1 && depth < DEEP) {
        is_registering = 1;
        GC_register_finalizer(earlier[BEFORE + mine], note, NULL, NULL, NULL);
        is_registering = 0;
        if (depth == mine + 1) GC_register_finalizer(earlier[BEFORE + mine], NULL, NULL, NULL, NULL);
    }
}
static int registered_within(void)
{
    start();
    count = 0;
    for (int k = 0; k < BEFORE; k++) GC_register_finalizer(earlier[k] = make(5, NULL), note, NULL, NULL, NULL);
    GC_set_start_callback(register_within);
    is_registering = 1;
    register_within();
    memset(earlier, 0, sizeof earlier);
    collect();
    GC_set_start_callback(NULL);
    return depth == DEEP && count >= BEFORE + DEEP - 5 ? 0 : 1;
}
#endif

/* The program is told of those that nothing reaches, and not of those that are finalized since it asks for all. */
static int awaited;
static void await(void *object)
{
    (void)object;
    awaited++;
}
static void all_at_the_end(void)
{
    GC_set_await_finalize_proc(await);
    make_some();
    count = 0;
    collect();
    CHECK(count >= 8 && awaited >= count);
    awaited = 0;
    count = 0;
    for (int k = 0; k < MANY; k++) {
        reached[k] = make((uint64_t)k, NULL);
        GC_register_finalizer(reached[k], note, NULL, NULL, NULL);
    }
    GC_finalize_all();
    CHECK(count >= MANY && awaited == 0);
}

int main(void)
{
#ifndef OTHER
    CHECK(status_of(registered_within) == 0);
#endif
    start();
    chain_goes_in_order(0);
    chain_goes_in_order(2);
    chain_goes_at_once();
    finalizers_keep();
    reached_stay();
    rings();
    registering();
    data_is_kept();
    atomic_ones_go();
    tagged_ones_go();
    links_go();
    on_demand();
    again_and_again();
    all_at_the_end();
    return check_ends();
}
