/* Each function of gc.h against its documented meaning. The same source runs over bdwgc where that is installed, with -DOTHER, which
 * shows that the meanings are bdwgc's; what is said of libmpgc alone is left out then. */
#define _GNU_SOURCE
#include <errno.h>
#include <signal.h>
#include <stdint.h>
#define GC_REQUIRE_WCSDUP
#include <wchar.h>
#include "gc.h"
#include "check.h"
#ifdef OTHER
#include <gc/gc_mark.h>
#endif

#define NOINLINE __attribute__((noinline))

/* Whether the last collection left the object at the hidden address. */
static int is_kept(GC_word hidden)
{
#ifdef OTHER
    return GC_base(GC_REVEAL_POINTER(hidden)) && GC_is_marked(GC_REVEAL_POINTER(hidden));
#else
    return GC_base(GC_REVEAL_POINTER(hidden)) != NULL;
#endif
}

/* A conservative heap may keep some objects too long, and bdwgc's is generational in incremental mode: fewer of 200 than so many. */
#ifdef OTHER
enum { STRAY = 60 };
#else
enum { STRAY = 10 };
#endif

/* What is to be let go is made with no collection between: what one took would be given out again, and count as kept. */
#define UNDISTURBED(make) do { \
        GC_disable(); \
        make; \
        GC_enable(); \
    } while (0)

/* Overwrites what calls before have left on the stack. */
static NOINLINE void clear_stack(void)
{
    char old[20000];
    explicit_bzero(old, sizeof old);
}

static int is_zero(const void *from, size_t bytes)
{
    const char *p = from;
    for (size_t k = 0; k < bytes; k++)
        if (p[k] != 0) return 0;
    return 1;
}

static NOINLINE void requests(void)
{
    for (size_t n = 0; n <= 5000; n = n < 40 ? n + 1 : n * 5 / 4) {
        char *p = GC_malloc(n), *q = GC_malloc_atomic(n);
        CHECK(p && q && (uintptr_t)p % 16 == 0 && (uintptr_t)q % 16 == 0);
        CHECK(is_zero(p, n));
        CHECK(GC_size(p) >= n && GC_size(q) >= n);
        CHECK(GC_base(p) == p && GC_base(p + n) == p && GC_base(q + n / 2) == q);
        CHECK(GC_is_heap_ptr(p) && GC_is_heap_ptr(q + n));
        memset(p, 1, n);
        memset(q, 2, n);
    }
    int local = 0;
    CHECK(!GC_is_heap_ptr(&local) && !GC_base(&local));
    CHECK(GC_malloc_ignore_off_page(10000) && GC_malloc_atomic_ignore_off_page(10000));
    CHECK(GC_NEW(int) && GC_NEW_ATOMIC(int) && GC_MALLOC(3) && GC_STRDUP("x"));
    void *list = GC_malloc_many(32);
    for (void *p = list; p; p = GC_NEXT(p)) CHECK(GC_base(p) == p && GC_size(p) >= 32);
}

static NOINLINE void texts(void)
{
    CHECK(strcmp(GC_strdup("a text"), "a text") == 0);
    CHECK(strcmp(GC_strndup("a text", 3), "a t") == 0);
    CHECK(strcmp(GC_strndup("a text", 30), "a text") == 0);
#ifndef OTHER
    CHECK(wcscmp(GC_wcsdup(L"wide"), L"wide") == 0);
#endif
}

static NOINLINE void reallocs(void)
{
    char *p = GC_realloc(NULL, 10);
    CHECK(p && is_zero(p, 10));
    strcpy(p, "123456789");
    for (size_t n = 10; n < 40000; n = n * 3 / 2) {
        char *q = GC_realloc(p, n * 3 / 2);
        CHECK(q && strcmp(q, "123456789") == 0 && is_zero(q + 10, n * 3 / 2 - 10));
        p = q;
    }
    p = GC_realloc(p, 12);
    CHECK(strcmp(p, "123456789") == 0 && GC_size(p) < 100);
    char *q = GC_malloc(100);
    memset(q, 7, 100);
    q = GC_realloc(q, 90);
    q = GC_realloc(q, 100);
    CHECK(q[89] == 7 && is_zero(q + 90, 10));
    CHECK(GC_realloc(q, 0) == NULL);
    char *text = GC_malloc_atomic(20);
    strcpy(text, "atomic");
    text = GC_realloc(text, 2000);
    CHECK(strcmp(text, "atomic") == 0);
}

/* An object that only an object of the kind names, after a realloc. */
static NOINLINE GC_word named_by(void **holder, int is_atomic)
{
    void **named = GC_malloc(64), **object = is_atomic ? GC_malloc_atomic(16) : GC_malloc(16);
    object[0] = named;
    object = GC_realloc(object, 800);
    *holder = object;
    return GC_HIDE_POINTER(named);
}

static void *keepers[200];
static GC_word hidden[200];

static NOINLINE void name_all(int is_atomic)
{
    for (int k = 0; k < 200; k++) hidden[k] = named_by(&keepers[k], is_atomic);
}

static int count_kept(void)
{
    int kept = 0;
    for (int k = 0; k < 200; k++) kept += is_kept(hidden[k]);
    return kept;
}

static NOINLINE void kinds(void)
{
    name_all(0);
    clear_stack();
    GC_gcollect();
    CHECK(count_kept() == 200);
    UNDISTURBED(name_all(1));
    clear_stack();
    GC_gcollect();
    CHECK(count_kept() < STRAY);
    memset(keepers, 0, sizeof keepers);
}

/* Objects that were made while a cycle marks, and that nothing names: the collection that the program asks for takes them too. */
static NOINLINE void while_it_marks(void)
{
    GC_start_incremental_collection();
    UNDISTURBED(name_all(1));
    memset(keepers, 0, sizeof keepers);
    clear_stack();
    GC_gcollect();
    CHECK(count_kept() < STRAY);
}

static NOINLINE void hide_uncollectable(void)
{
    for (int k = 0; k < 200; k++) {
        void **object = GC_malloc_uncollectable(40);
        object[1] = GC_malloc(24);
        hidden[k] = k % 2 ? GC_HIDE_POINTER(object) : GC_HIDE_POINTER(object[1]);
        if (k % 2 == 0) keepers[k] = (void *)GC_HIDE_POINTER(object);
    }
}

/* They themselves may be given out again: what they led to goes. */
static NOINLINE void free_uncollectable(void)
{
    for (int k = 0; k < 200; k++) {
        void **object = GC_REVEAL_POINTER(k % 2 ? hidden[k] : (GC_word)keepers[k]);
        hidden[k] = GC_HIDE_POINTER(object[1]);
        GC_free(object);
    }
}

static NOINLINE void uncollectable(void)
{
    GC_word before = GC_get_non_gc_bytes();
    hide_uncollectable();
    CHECK(GC_get_non_gc_bytes() >= before + 200 * 40);
    clear_stack();
    GC_gcollect();
    CHECK(count_kept() == 200);
    free_uncollectable();
#ifndef OTHER /* bdwgc counts larger blocks when it frees */
    CHECK(GC_get_non_gc_bytes() == before);
#endif
    clear_stack();
    GC_gcollect();
    CHECK(count_kept() < STRAY);
    memset(keepers, 0, sizeof keepers);
    CHECK(GC_malloc_atomic_uncollectable(10) != NULL);
    GC_free(NULL);
}

static NOINLINE void aligned(void)
{
    for (size_t align = 8; align <= 4096; align *= 2) {
        char *p = GC_memalign(align, 100);
        void *q = NULL;
        CHECK((uintptr_t)p % align == 0 && GC_base(p) != NULL);
        CHECK(GC_posix_memalign(&q, align, 50) == 0 && (uintptr_t)q % align == 0);
    }
    for (size_t align = 17; align < 2000; align += 31) {
        char *p = GC_memalign(align, 50), *end = GC_base(p + 49);
        CHECK((uintptr_t)p % align == 0 && end != NULL && end == GC_base(p));
    }
    void *q = NULL;
    CHECK(GC_posix_memalign(&q, 24, 50) == EINVAL);
}

static int starts;
static void note_start(void) { starts++; }
static int polls;
static int at_once(void) { return 1; }
static int later(void) { return ++polls > 3; }
static int never(void) { return 0; }

static NOINLINE void collections(void)
{
    GC_word count = GC_get_gc_no();
    GC_gcollect();
    CHECK(GC_get_gc_no() > count && GC_get_gc_no() == GC_gc_no);
    count = GC_get_gc_no();
    GC_disable();
    GC_disable();
    CHECK(GC_is_disabled());
    GC_gcollect();
    CHECK(GC_get_gc_no() == count && GC_try_to_collect(never) == 0);
    GC_enable();
    GC_gcollect();
    CHECK(GC_is_disabled() && GC_get_gc_no() == count);
    GC_enable();
    CHECK(!GC_is_disabled());
    CHECK(GC_try_to_collect(at_once) == 0 && GC_get_gc_no() == count);
    CHECK(GC_try_to_collect(never) == 1 && GC_get_gc_no() > count);
    polls = 0;
    (void)GC_try_to_collect(later);
    CHECK(polls >= 1);
    count = GC_get_gc_no();
    GC_set_stop_func(at_once);
    CHECK(GC_get_stop_func() == at_once);
    GC_gcollect();
    CHECK(GC_get_gc_no() == count);
    GC_set_stop_func(never);
    GC_gcollect_and_unmap();
    CHECK(GC_get_gc_no() > count);
    GC_set_start_callback(note_start);
    CHECK(GC_get_start_callback() == note_start);
    GC_gcollect();
    CHECK(starts > 0);
    GC_set_start_callback(NULL);
}

static NOINLINE void figures(void)
{
    GC_gcollect();
    CHECK(GC_get_bytes_since_gc() < 1000);
    size_t total = GC_get_total_bytes();
    GC_disable();
    for (int k = 0; k < 100; k++) GC_malloc_atomic(999);
    GC_enable();
    CHECK(GC_get_bytes_since_gc() >= 99900 && GC_get_bytes_since_gc() < 200000);
    CHECK(GC_get_total_bytes() >= total + 99900 && GC_get_total_bytes() < total + 200000);
    GC_word heap, unused, unmapped, since, all;
    GC_get_heap_usage_safe(&heap, &unused, &unmapped, &since, &all);
    CHECK(heap == GC_get_heap_size() && since == GC_get_bytes_since_gc() && all == GC_get_total_bytes());
    CHECK(unused <= heap && GC_get_obtained_from_os_bytes() >= heap);
    struct GC_prof_stats_s stats;
    memset(&stats, 0x55, sizeof stats);
    CHECK(GC_get_prof_stats(&stats, sizeof stats) == sizeof stats);
    CHECK(stats.gc_no == GC_get_gc_no() && stats.bytes_allocd_since_gc == since && stats.allocd_bytes_before_gc + since == all);
    size_t before = GC_get_heap_size();
    CHECK(GC_expand_hp(65536) == 1 && GC_get_heap_size() >= before + 65536);
    CHECK(GC_get_size_map_at(100) >= 100 && GC_get_size_map_at(100) <= 128);
}

static GC_word range_hidden;
static NOINLINE void fill(void **range, int count)
{
    for (int k = 0; k < count; k++) range[k] = GC_malloc(48);
    range_hidden = GC_HIDE_POINTER(range[count / 2]);
    for (int k = 0; k < count && k < 200; k++) hidden[k] = GC_HIDE_POINTER(range[k]);
}

static void *excluded[200];

static NOINLINE void ranges(void)
{
    void **range = malloc(200 * sizeof *range);
    GC_add_roots(range, range + 200);
    fill(range, 200);
    clear_stack();
    GC_gcollect();
    CHECK(count_kept() == 200);
    GC_remove_roots(range, range + 200);
    clear_stack();
    GC_gcollect();
    CHECK(count_kept() < STRAY);
    GC_exclude_static_roots(excluded, excluded + 200);
    UNDISTURBED(fill(excluded, 200));
    clear_stack();
    GC_gcollect();
    CHECK(count_kept() < STRAY);
#ifndef OTHER /* bdwgc has its own memory in this table */
    GC_clear_exclusion_table();
    fill(excluded, 200);
    clear_stack();
    GC_gcollect();
    CHECK(count_kept() == 200);
#endif
    memset(excluded, 0, sizeof excluded);
    GC_exclude_static_roots(range + 50, range + 150);
    GC_add_roots(range, range + 200);
    fill(range, 200);
    clear_stack();
    GC_gcollect();
    CHECK(count_kept() >= 100 && count_kept() < 100 + STRAY);
    GC_remove_roots(range, range + 200);
#ifndef OTHER
    GC_clear_exclusion_table();
#endif
    free(range);
}

/* A table that grows is read once, and all of it. */
static NOINLINE void growing_range(void)
{
    enum { LENGTH = 40000 };
    void **range = calloc(LENGTH, sizeof *range);
    for (int k = 1; k <= LENGTH; k++) GC_add_roots(range, range + k);
    fill(range + LENGTH - 200, 200);
    clear_stack();
    GC_gcollect();
    CHECK(count_kept() == 200);
    GC_remove_roots(range, range + LENGTH);
    clear_stack();
    GC_gcollect();
    CHECK(count_kept() < STRAY);
    free(range);
}

static char *warning;
static void note_warning(char *format, GC_word number)
{
    (void)number;
    warning = format;
}
static char reserve[16];
static volatile size_t wanted;
static void *from_reserve(size_t bytes)
{
    wanted = bytes;
    return reserve;
}

static NOINLINE void no_room(void)
{
    GC_warn_proc old_warn = GC_get_warn_proc();
    GC_oom_func old = GC_get_oom_fn();
    GC_set_warn_proc(note_warning);
    CHECK(GC_get_warn_proc() == note_warning);
    volatile size_t huge = (size_t)1 << 60;
    CHECK(GC_malloc(huge) == NULL && GC_malloc_atomic(huge) == NULL);
    GC_set_oom_fn(from_reserve);
    CHECK(GC_get_oom_fn() == from_reserve);
    volatile uintptr_t got = (uintptr_t)GC_malloc(huge);
    CHECK(got == (uintptr_t)reserve);
    CHECK(wanted >= huge);
    GC_set_oom_fn(old);
    GC_set_warn_proc(GC_ignore_warn_proc);
    GC_set_warn_proc(old_warn);
}

static void *itself(void *data) { return data; }
static void *base_of(struct GC_stack_base *base, void *data) { return (char *)base->mem_base > (char *)&base ? data : NULL; }

static NOINLINE void calls(void)
{
    int one;
    struct GC_stack_base base;
    CHECK(GC_call_with_alloc_lock(itself, &one) == &one && GC_do_blocking(itself, &one) == &one);
    CHECK(GC_call_with_gc_active(itself, &one) == &one && GC_call_with_stack_base(base_of, &one) == &one);
    CHECK(GC_get_stack_base(&base) == GC_SUCCESS && (char *)base.mem_base > (char *)&base);
    void *cell = NULL;
    GC_ptr_store_and_dirty(&cell, &one);
    CHECK(cell == &one);
    char *p = GC_malloc(40), *q = p;
    CHECK(GC_same_obj(p, p + 8) == p && GC_post_incr((void **)&q, 8) == p && q == p + 8 && GC_pre_incr((void **)&q, 8) == p + 16);
    CHECK(GC_is_visible(&p) == &p && GC_is_valid_displacement(p + 3) == p + 3);
}

static void finalizer(void *object, void *data)
{
    (void)object;
    (void)data;
}

static NOINLINE void finalizers(void)
{
    GC_finalization_proc old = finalizer;
    void *data = &old;
    GC_register_finalizer(GC_malloc(20), NULL, NULL, &old, &data);
    CHECK(old == NULL && data == NULL);
    old = finalizer;
    GC_register_finalizer(&old, finalizer, NULL, &old, &data);
    CHECK(old == NULL);
}

static NOINLINE void incremental(void)
{
    GC_enable_incremental();
    CHECK(GC_is_incremental_mode());
    GC_word count = GC_get_gc_no();
    for (int k = 0; k < 100000; k++) keepers[k % 200] = GC_malloc(64);
    for (int k = 0; k < 1000000 && GC_collect_a_little(); k++) continue;
    CHECK(GC_get_gc_no() > count);
    count = GC_get_gc_no();
    GC_start_incremental_collection();
    for (int k = 0; k < 1000000 && GC_collect_a_little(); k++) continue;
    CHECK(GC_get_gc_no() > count);
    GC_gcollect();
    CHECK((GC_incremental_protection_needs() & ~GC_PROTECTS_POINTER_HEAP) == 0);
}

#ifndef OTHER
static void bad_free(void) { GC_free((char *)GC_malloc(64) + 16); }
static void second_free(void)
{
    void *p = GC_malloc(64);
    GC_free(p);
    GC_free(p);
}
static void bad_realloc(void) { keepers[0] = GC_realloc((char *)GC_malloc(64) + 8, 100); }
static void other_objects(void) { GC_same_obj(GC_malloc(20), GC_malloc(20)); }
extern void GC_clear_mark_bit(void);

static NOINLINE void stops(void)
{
    CHECK(stops_with(bad_free, "GC_free of what isn't the beginning"));
    CHECK(stops_with(second_free, "GC_free of what isn't the beginning"));
    CHECK(stops_with(bad_realloc, "GC_realloc of what isn't the beginning"));
    CHECK(stops_with(other_objects, "GC_same_obj"));
    CHECK(stops_with(GC_clear_mark_bit, "no mark can be taken away"));
    CHECK(GC_thread_is_registered() && GC_register_my_thread(NULL) == GC_DUPLICATE);
}
#endif

int main(void)
{
    GC_INIT();
    requests();
    texts();
    reallocs();
    kinds();
    while_it_marks();
    uncollectable();
    aligned();
    collections();
    figures();
    ranges();
    growing_range();
    no_room();
    calls();
    finalizers();
#ifndef OTHER
    stops();
#endif
    incremental();
    requests();
    texts();
    reallocs();
    kinds();
    while_it_marks();
    return check_ends();
}
