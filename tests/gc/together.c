/* Threads that ask at once for all that is kept of objects: links, finalizers, typed objects, kinds, toggle references, roots and figures.
 *
 *     together COUNT SECONDS
 *
 * Each thread looks after its own: what a link, a finalizer or a typed word names is there as long as it has to be, and goes once. */
#define _GNU_SOURCE
#define GC_THREADS
#include <fcntl.h>
#include <pthread.h>
#include <sched.h>
#include <stdatomic.h>
#include <stdint.h>
#include "gc.h"
#include <gc/gc_disclaim.h>
#include <gc/gc_mark.h>
#include <gc/gc_typed.h>
#include "check.h"
#include "drawn.h"

enum { PLACES = 40, HIGH = 1 << 30 };

/* A place has an object, a link to it, and what is known of it. */
struct object { uint64_t number; struct object *other; };
struct typed { struct object *strong, *weak; uint64_t number; };
struct place { struct object *volatile object; void *link; uint64_t number; int is_linked; };

static _Atomic int wrong, is_over;
static _Atomic uint64_t finalized, to_finalize, asked, events, operations;
static GC_descr first_word;
static int asked_kind;
static double until;

static void must(const char *what, int is_so)
{
    if (is_so) return;
    wrong++;
    printf("failed: %s\n", what);
}

static void on_finalize(void *object, void *data)
{
    must("a finalizer's object is whole", ((struct object *)object)->number == (uint64_t)(uintptr_t)data);
    finalized++;
}

static int lets_go(void *object)
{
    must("an object that is asked is whole", ((struct object *)object)->number >= HIGH);
    asked++;
    return 0;
}

static GC_ToggleRefStatus goes(void *object)
{
    (void)object;
    return GC_TOGGLE_REF_DROP;
}

static void look_at(const struct place *place)
{
    if (!place->object) return;
    must("a kept object has its number", place->object->number == place->number);
    if (place->is_linked) must("a link to a kept object stays", GC_REVEAL_POINTER(place->link) == (void *)place->object);
}

static void forget(struct place *place)
{
    if (place->is_linked) GC_unregister_disappearing_link(&place->link);
    *place = (struct place){ NULL, NULL, 0, 0 };
}

static void renew(struct place *place, uint64_t number)
{
    forget(place);
    struct object *object = GC_malloc(sizeof *object);
    object->number = place->number = number;
    place->object = object;
}

static void link_it(struct place *place)
{
    if (!place->object || place->is_linked) return;
    place->link = (void *)GC_HIDE_POINTER(place->object);
    must("a link is registered", GC_general_register_disappearing_link(&place->link, place->object) == GC_SUCCESS);
    place->is_linked = 1;
}

/* The object's only name goes, and the link with it at some collection's end. */
static void let_go(struct place *place)
{
    if (!place->is_linked) return;
    place->object = NULL;
    for (int k = 0; k < 50 && place->link; k++) (void)GC_collect_a_little();
    forget(place);
}

static void finalize(struct place *place)
{
    if (!place->object) return;
    GC_finalization_proc old;
    GC_register_finalizer_no_order(place->object, on_finalize, (void *)(uintptr_t)place->number, &old, NULL);
    to_finalize += old == NULL;
}

static void take_finalizer_back(struct place *place)
{
    if (!place->object) return;
    GC_finalization_proc old;
    GC_register_finalizer_no_order(place->object, NULL, NULL, &old, NULL);
    to_finalize -= old != NULL;
}

static void make_typed(struct place *place)
{
    struct typed *typed = GC_malloc_explicitly_typed(sizeof *typed, first_word);
    *typed = (struct typed){ place->object, NULL, HIGH };
    GC_malloc(60);
    must("a typed word stays", typed->strong == place->object && typed->number == HIGH);
}

static void make_asked(uint64_t number)
{
    *(struct object *)GC_generic_malloc(sizeof(struct object), asked_kind) = (struct object){ HIGH + number % HIGH, NULL };
}

static void ask_for_figures(void)
{
    GC_word heap, free_bytes;
    struct GC_prof_stats_s stats;
    GC_get_heap_usage_safe(&heap, &free_bytes, NULL, NULL, NULL);
    must("a heap is as large as what is free of it", free_bytes <= heap);
    GC_get_prof_stats(&stats, sizeof stats);
    must("so it says of all", stats.free_bytes_full <= stats.heapsize_full);
}

static void add_roots(struct place *place, uint64_t *state)
{
    struct object *volatile *outside = malloc(4096);
    for (int k = 0; k < 512; k++) outside[k] = NULL;
    outside[drawn(state) % 512] = place->object;
    GC_add_roots((void *)(uintptr_t)outside, (void *)(uintptr_t)(outside + 512));
    GC_malloc(5000);
    GC_remove_roots((void *)(uintptr_t)outside, (void *)(uintptr_t)(outside + 512));
    free((void *)(uintptr_t)outside);
}

static void with_memory(struct place *place)
{
    char *text = GC_strdup("some text"), *more = GC_realloc(GC_malloc_uncollectable(30), 300), *at = GC_memalign(64, 100);
    must("an address is aligned", (uintptr_t)at % 64 == 0 && GC_base(at) != NULL && GC_is_heap_ptr(text));
    must("a text is whole", strcmp(text, "some text") == 0 && GC_size(more) >= 300);
    GC_free(more);
    if (place->object) must("an object's base is itself", GC_base(&place->object->other) == place->object);
}

/* Each thread sets the same, and finds it. */
static void on_event(GC_EventType event) { events += event == GC_EVENT_END; }
static void set_and_get(void)
{
    GC_set_on_collection_event(on_event);
    GC_set_oom_fn(GC_get_oom_fn());
    GC_set_warn_proc(GC_ignore_warn_proc);
    GC_set_toggleref_func(goes);
    must("a request that can't be has no object", GC_malloc((size_t)1 << 50) == NULL);
    must("what is set is got", GC_get_on_collection_event() == on_event && GC_get_toggleref_func() == goes &&
         GC_get_warn_proc() == GC_ignore_warn_proc && !GC_get_finalizer_notifier() && !GC_get_await_finalize_proc());
}

static void *rests(void *data)
{
    usleep(200);
    return data;
}

static void do_one(struct place *place, uint64_t *state)
{
    uint64_t random = drawn(state);
    look_at(place);
    switch (random % 24) {
    case 0: case 1: case 2: link_it(place); break;
    case 3: let_go(place); break;
    case 4: case 5: finalize(place); break;
    case 6: take_finalizer_back(place); break;
    case 7: case 8: make_typed(place); break;
    case 9: make_asked(random >> 20); break;
    case 10: ask_for_figures(); break;
    case 11: if (random % 7 == 0) add_roots(place, state); break;
    case 12: with_memory(place); break;
    case 13: if (place->object && random % 5 == 0) GC_toggleref_add(place->object, 1); break;
    case 14: if (random % 200 == 0) GC_gcollect(); break;
    case 15: if (random % 50 == 0) GC_do_blocking(rests, NULL); break;
    case 16: (void)GC_should_invoke_finalizers(); break;
    case 17: if (random % 5 == 0) set_and_get(); break;
    default: renew(place, random % HIGH);
    }
}

static void *work(void *data)
{
    uint64_t state = (uint64_t)(uintptr_t)data * 0x9E3779B97F4A7C15ull + 1;
    struct place *places = GC_malloc(PLACES * sizeof *places);
    while (!is_over && wrong == 0) {
        for (int k = 0; k < 100; k++) do_one(&places[drawn(&state) % PLACES], &state);
        operations += 100;
        if (now() > until) is_over = 1;
    }
    for (int k = 0; k < PLACES; k++) forget(&places[k]);
    return NULL;
}

/* A call of the system writes into an object while another thread makes the heap larger. By relaxed words alone the two know of each other, so that
 * nothing but the layer's lock orders them. */
enum { GROWTHS = 40, GROWTH = 1 << 20 };
static _Atomic int grown, written;

static void *write_beside(void *object)
{
    int zeros = open("/dev/zero", O_RDONLY);
    for (int round = 1; round <= GROWTHS; round++) {
        while (atomic_load_explicit(&grown, memory_order_relaxed) < round) sched_yield();
        must("an object is written to", read(zeros, object, sizeof(struct object)) == sizeof(struct object));
        atomic_store_explicit(&written, round, memory_order_relaxed);
    }
    close(zeros);
    return object;
}

static void grow_beside(void)
{
    pthread_t other;
    void *volatile kept[GROWTHS];
    size_t before = GC_get_heap_size();
    GC_disable();
    pthread_create(&other, NULL, write_beside, GC_malloc(sizeof(struct object)));
    for (int round = 1; round <= GROWTHS; round++) {
        kept[round - 1] = GC_malloc_atomic(GROWTH);
        atomic_store_explicit(&grown, round, memory_order_relaxed);
        while (atomic_load_explicit(&written, memory_order_relaxed) < round) sched_yield();
    }
    pthread_join(other, NULL);
    CHECK(GC_get_heap_size() - before >= GROWTHS / 2 * (size_t)GROWTH);
    for (int k = 0; k < GROWTHS; k++) GC_free(kept[k]);
    GC_enable();
}

int main(int count, char **words)
{
    int threads = count > 1 ? atoi(words[1]) : 3;
    pthread_t all[64];
    GC_word bits[1] = { 1 };
    GC_set_free_space_divisor(60);
    GC_INIT();
    if (getenv("INCREMENTAL")) GC_enable_incremental();
    GC_set_toggleref_func(goes);
    first_word = GC_make_descriptor(bits, 3);
    grow_beside();
    asked_kind = (int)GC_new_kind(GC_new_free_list(), 0 | GC_DS_LENGTH, 1, 1);
    GC_register_disclaim_proc(asked_kind, lets_go, 0);
    until = now() + (count > 2 ? atof(words[2]) : 3);
    for (int k = 0; k < threads; k++) pthread_create(&all[k], NULL, work, (void *)(uintptr_t)(k + 1));
    for (int k = 0; k < threads; k++) pthread_join(all[k], NULL);
    for (int k = 0; k < 6; k++) {
        GC_gcollect();
        GC_invoke_finalizers();
    }
    CHECK(wrong == 0);
    CHECK(finalized <= to_finalize && to_finalize - finalized <= (uint64_t)(20 * threads));
    CHECK(asked > 0 && finalized > 0 && events > 0);
    printf("%llu operations, %llu of %llu finalized, %llu asked, %lu collections\n", (unsigned long long)operations,
           (unsigned long long)finalized, (unsigned long long)to_finalize, (unsigned long long)asked, (unsigned long)GC_get_gc_no());
    return check_ends();
}
