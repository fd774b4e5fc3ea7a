// Finalizers: functions of the program that are called once an object isn't reached any more, and before it goes. The order is bdwgc's.
//
// At a cycle's end all is marked that the roots lead to. The objects in the table that aren't marked are those which nothing reaches. First
// what they point to is marked, and not they: those that still aren't marked then are reached by no other one, and are ready. They are
// marked too, so that the cycle's end keeps them and all that they lead to. Behind that end they are taken out of the table, and an object
// of the heap names them until their function is called, as a program would do it: so no root is owed for them here, nor for the data.
#include "awaited.h"
#include <stdatomic.h>
#include <stdio.h>

enum order { NORMAL, IGNORE_SELF, NO_ORDER, UNREACHABLE };

// Both are objects of the heap, and the second one stays.
struct entry {
    struct entry *next;
    GC_hidden_pointer hidden;  // the object, as the program named it: a tag may be in the lowest bits, as in those of ECL's lists
    void *object;              // the same, once it is ready
    void *data;
    GC_finalization_proc function;
    enum order order;
};
// Of those that are ready the first was taken, and its place is left alone, so that who takes the next one touches none that others come behind.
static struct all { struct entry **chains, *ready, *last; } *all;

static size_t count, room;
static atomic_size_t ready_count;  // which is looked at without the lock

// What was found while no other thread runs: so there is room for it before. The entries lie all over the heap, and are looked at once.
static struct asked { struct entry *entry; uintptr_t base; enum order order; bool is_ready; } *asked;
static size_t asked_room, asked_count;
enum { AHEAD = 12 };  // so many entries are fetched ahead

static uintptr_t object_of(const struct entry *one) { return ~one->hidden; }
static uintptr_t base_of(const struct entry *one) { return object_of(one) & ~(GRANULE - 1); }

// ---- The table ----

static struct entry **chain_of(uintptr_t base) { return &all->chains[base / GRANULE * 0x9E3779B97F4A7C15u >> 20 & (room - 1)]; }

static struct entry **place_of(uintptr_t base)
{
    static struct entry *none;
    struct entry **at = room == 0 ? &none : chain_of(base);
    while (*at && base_of(*at) != base) at = &(*at)->next;
    return at;
}

static struct entry *take(struct entry **at)
{
    struct entry *one = *at;
    *at = one->next;
    return one;
}

static void put(struct entry *one)
{
    struct entry **chain = chain_of(base_of(one));
    one->next = *chain;
    *chain = one;
}

static bool has_room_to_ask(void)
{
    if (count < asked_room) return true;
    struct asked *larger = mpgc_memory(asked, (2 * count + 64) * sizeof *asked);
    if (!larger) return false;
    asked = larger;
    asked_room = 2 * count + 64;
    return true;
}

static bool is_started(void)
{
    if (!all) all = GC_malloc_uncollectable(sizeof *all);
    struct entry *first = all && !all->last ? GC_malloc(sizeof *first) : NULL;
    if (first && !all->last) all->ready = all->last = first;
    return all && all->last;
}

// Room for one more. A request may collect, so the table is whole before it.
static bool has_room(void)
{
    if (!is_started()) return false;
    if (count < room) return true;
    size_t larger = room ? 2 * room : 64;
    struct entry **made = GC_malloc(larger * sizeof *made), **old = all->chains;
    if (!made) return room != 0;
    size_t old_room = room;
    all->chains = made;
    room = larger;
    for (size_t k = 0; k < old_room; k++)
        while (old[k]) put(take(&old[k]));
    return true;
}

static struct entry *make(void *object, GC_finalization_proc function, void *data, enum order order)
{
    struct entry *made = has_room() ? GC_malloc(sizeof *made) : NULL;
    if (!has_room_to_ask()) return NULL;  // behind all requests, under which a function of the program may register others
    if (made) *made = (struct entry){ NULL, GC_HIDE_POINTER(object), NULL, data, function, order };
    return made;
}

static void set(void *object, GC_finalization_proc function, void *data, GC_finalization_proc *old, void **old_data, enum order order)
{
    uintptr_t base = 0;
    size_t words;
    GC_init();
    if (GC_find_leak) return;  // what goes is told, and nothing called
    GC_alloc_lock();
    bool is_object = mpgc_find((uintptr_t)object, &base, &words) && (uintptr_t)object - base < GRANULE;
    struct entry *made = is_object && function ? make(object, function, data, order) : NULL;
    struct entry **at = place_of(base), *was = is_object && *at && (made || !function) ? take(at) : NULL;
    if (made) put(made);
    if (made) mpgc_know_more(base);
    count += (made != NULL) - (size_t)(was != NULL);
    GC_alloc_unlock();
    if (old) *old = was ? was->function : NULL;
    if (old_data) *old_data = was ? was->data : NULL;
    if (is_object && function && !made) (void)mpgc_out_of_memory(sizeof *made);
}

// ---- At a cycle's end ----

bool mpgc_has_to_find(void) { return count > 0 || mpgc_has_toggled() || mpgc_has_disclaimed() || GC_find_leak; }

static void list_unmarked(void)
{
    asked_count = 0;
    for (size_t k = 0; k < room; k++) {
        if (k + AHEAD < room) __builtin_prefetch(all->chains[k + AHEAD]);
        for (struct entry *one = all->chains[k]; one; one = one->next)
            if (!mpgc_is_marked(base_of(one))) asked[asked_count++] = (struct asked){ one, base_of(one), one->order, false };
    }
}

static void mark_from_inside(const struct asked *one)
{
    uintptr_t base;
    size_t words;
    if (one->order == NO_ORDER || !mpgc_find(one->base, &base, &words)) return;
    mpgc_mark_from_words(base, words, one->order != IGNORE_SELF);
}

// Of those that are ready only where nothing else leads to them, or of the others: what isn't marked is ready, and marked.
static void make_ready(bool is_last)
{
    for (size_t k = 0; k < asked_count; k++)
        asked[k].is_ready |= (asked[k].order == UNREACHABLE) == is_last && !mpgc_is_marked(asked[k].base);
    for (size_t k = 0; k < asked_count; k++)
        if (asked[k].is_ready && (asked[k].order == UNREACHABLE) == is_last) mpgc_mark_from(asked[k].base);
    mpgc_mark_all();
}

void mpgc_find_ready(void)
{
    list_unmarked();
    for (size_t k = 0; k < asked_count; k++) mark_from_inside(&asked[k]);
    mpgc_mark_all();
    make_ready(false);
    make_ready(true);
    mpgc_find_leaks();
}

static void add_ready(struct entry *one)
{
    one->object = (void *)object_of(one);
    one->next = NULL;
    all->last->next = one;
    all->last = one;
    ready_count++;
    count--;
}

// The cycle has ended, and nothing was allocated since. The program is told of each object.
void mpgc_take_ready(void)
{
    GC_await_finalize_proc tell = GC_get_await_finalize_proc();
    for (size_t k = 0; k < asked_count; k++) {
        if (k + AHEAD < asked_count) __builtin_prefetch(asked[k + AHEAD].entry);
        if (!asked[k].is_ready) continue;
        struct entry *one = take(place_of(asked[k].base));
        add_ready(one);
        if (tell) tell(one->object);
    }
    asked_count = 0;
    mpgc_drop_toggled();
}

// An object of the program's is freed.
void mpgc_forget_finalizer(uintptr_t base)
{
    mpgc_forget_disclaimed(base);
    mpgc_forget_place(base);
    struct entry **at = count == 0 ? NULL : place_of(base);
    if (!at || !*at) return;
    (void)take(at);
    count--;
}

// ---- Calling them ----

// A handler that comes between may take some too, and one that collects puts others behind the last.
static bool take_ready(struct entry *taken)
{
    struct entry *before, *one = NULL;
    if (ready_count == 0) return false;
    do {
        before = __atomic_load_n(&all->ready, __ATOMIC_RELAXED);
        one = __atomic_load_n(&before->next, __ATOMIC_RELAXED);
        if (!one) return false;
    } while (!__atomic_compare_exchange_n(&all->ready, &before, one, false, __ATOMIC_RELAXED, __ATOMIC_RELAXED));
    *taken = *one;
    before->next = NULL;  // else who names it would keep all that come
    one->object = one->data = NULL;
    ready_count--;
    return true;
}

int GC_should_invoke_finalizers(void) { return ready_count > 0; }

int GC_invoke_finalizers(void)
{
    for (int invoked = 0;; invoked++) {
        struct entry one;
        GC_alloc_lock();
        bool is_one = take_ready(&one);
        GC_alloc_unlock();
        if (!is_one) return invoked;
        one.function(one.object, one.data);
        one = (struct entry){ 0 };
        __asm__ volatile("" : : "r"(&one) : "memory");  // what it named stays until then, and isn't left on the stack
    }
}

// Where this thread's finalizers are called, if it is there that it calls them; and so often one was in the way of others since.
static _Thread_local char *calling_at __attribute__((tls_model("initial-exec")));
static _Thread_local unsigned in_the_way __attribute__((tls_model("initial-exec")));

// A finalizer that makes requests doesn't call others, at first. But it may have been jumped out of, or never end, so that others are called at last,
// as by bdwgc. One was jumped out of in any case where the stack goes no further than there.
static bool is_one_in_the_way(const char *here)
{
    enum { PATIENCE = 1000 };
    if (!calling_at || here >= calling_at) return false;
    if (++in_the_way < PATIENCE) return true;
    in_the_way = 0;
    return false;
}

// Behind each collection the program is told once, by whichever thread: answers by what, if it is to be.
static _Atomic GC_word told_at;
static GC_finalizer_notifier_proc next_to_tell(void)
{
    if (told_at == GC_get_gc_no()) return NULL;
    GC_alloc_lock();
    GC_finalizer_notifier_proc tell = told_at == GC_get_gc_no() ? NULL : GC_get_finalizer_notifier();
    if (tell) told_at = GC_get_gc_no();
    GC_alloc_unlock();
    return tell;
}

// After a request or a collection.
void mpgc_tell_ready(void)
{
    char here;
    mpgc_tell_leaks();
    if (ready_count == 0 || mpgc_has_lock() || is_one_in_the_way(&here)) return;
    if (!GC_finalize_on_demand) {
        calling_at = &here;
        (void)GC_invoke_finalizers();
        calling_at = NULL;
    } else {
        GC_finalizer_notifier_proc tell = next_to_tell();
        if (tell) tell();
    }
}

void GC_finalize_all(void)
{
    sigset_t old;
    GC_init();
    do {
        GC_alloc_lock();
        mpgc_block_signals(&old);
        for (size_t k = 0; k < room; k++)
            while (all->chains[k]) add_ready(take(&all->chains[k]));
        mpgc_restore_signals(&old);
        GC_alloc_unlock();
    } while (GC_invoke_finalizers() > 0);
}

void GC_dump_finalization(void)
{
    printf("%zu finalizers, %zu of them ready; %zu disappearing links\n", count + ready_count, (size_t)ready_count, mpgc_count_links());
}

#define FINALIZER(name, order) \
    void name(void *object, GC_finalization_proc function, void *data, GC_finalization_proc *old, void **old_data) \
    { \
        set(object, function, data, old, old_data, order); \
    }
FINALIZER(GC_register_finalizer, NORMAL)
FINALIZER(GC_register_finalizer_ignore_self, IGNORE_SELF)
FINALIZER(GC_register_finalizer_no_order, NO_ORDER)
FINALIZER(GC_register_finalizer_unreachable, UNREACHABLE)
FINALIZER(GC_debug_register_finalizer, NORMAL)
FINALIZER(GC_debug_register_finalizer_ignore_self, IGNORE_SELF)
FINALIZER(GC_debug_register_finalizer_no_order, NO_ORDER)
FINALIZER(GC_debug_register_finalizer_unreachable, UNREACHABLE)
