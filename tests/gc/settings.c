/* What a program sets, is told and asks for besides requests: callbacks, figures, the debugging names, the stack, the dump. The same source
 * runs over bdwgc where that is installed, with -DOTHER; what is said of libmpgc alone is left out then. */
#define _GNU_SOURCE
#include <errno.h>
#include <sched.h>
#include <stdint.h>
#include <unistd.h>
#include "gc.h"
#include "check.h"
#ifdef OTHER
#include <gc/gc_mark.h>
#endif

#define NOINLINE __attribute__((noinline))

static GC_word heap_was_told;
static void note_resize(GC_word bytes) { heap_was_told = bytes; }
static unsigned events_seen;
static void note_event(GC_EventType event) { events_seen |= 1u << event; }

static NOINLINE void callbacks(void)
{
    const unsigned of_all = 1u << GC_EVENT_START | 1u << GC_EVENT_MARK_START | 1u << GC_EVENT_MARK_END | 1u << GC_EVENT_RECLAIM_START |
                            1u << GC_EVENT_RECLAIM_END | 1u << GC_EVENT_END | 1u << GC_EVENT_PRE_STOP_WORLD | 1u << GC_EVENT_POST_STOP_WORLD |
                            1u << GC_EVENT_PRE_START_WORLD | 1u << GC_EVENT_POST_START_WORLD;
    GC_set_on_collection_event(note_event);
    CHECK(GC_get_on_collection_event() == note_event);
    GC_gcollect();
    CHECK((events_seen & of_all) == of_all);
    GC_set_on_collection_event(0);
    CHECK(GC_get_on_collection_event() == 0);
    GC_set_on_heap_resize(note_resize);
    CHECK(GC_get_on_heap_resize() == note_resize && GC_on_heap_resize == note_resize);
    CHECK(GC_expand_hp(300000) == 1 && heap_was_told == GC_get_heap_size());
    GC_set_on_heap_resize(0);
}

static NOINLINE void figures(void)
{
    struct GC_prof_stats_s stats, again;
    GC_gcollect();
    CHECK(GC_get_expl_freed_bytes_since_gc() == 0);
    GC_disable();
    void *p = GC_malloc(5000);
    GC_free(p);
    CHECK(GC_get_expl_freed_bytes_since_gc() >= 5000 && GC_get_expl_freed_bytes_since_gc() < 12000);
    GC_enable();
    CHECK(GC_get_free_bytes() > 0 && GC_get_free_bytes() <= GC_get_heap_size());
    CHECK(GC_get_unmapped_bytes() == 0 || GC_get_unmapped_bytes() < GC_get_heap_size());
    CHECK(GC_get_memory_use() <= GC_get_heap_size() + 4096);
    CHECK(GC_get_prof_stats_unsafe(&stats, sizeof stats) == sizeof stats && stats.heapsize_full == GC_get_heap_size() + GC_get_unmapped_bytes());
    memset(&again, 1, sizeof again);
    size_t half = offsetof(struct GC_prof_stats_s, non_gc_bytes);
    CHECK(GC_get_prof_stats(&again, half) == half && again.heapsize_full == stats.heapsize_full);
    CHECK(again.non_gc_bytes == (GC_word)0x0101010101010101);
    char longer[sizeof stats + 16];
    CHECK(GC_get_prof_stats((struct GC_prof_stats_s *)(void *)longer, sizeof longer) == sizeof stats);
    CHECK((unsigned char)longer[sizeof longer - 1] == 0xff);
    GC_start_performance_measurement();
    GC_gcollect();
    CHECK(GC_get_full_gc_total_time() < 10000);
    GC_word bytes = GC_get_non_gc_bytes();
    GC_set_non_gc_bytes(bytes + 10);
    CHECK(GC_get_non_gc_bytes() == bytes + 10 && GC_non_gc_bytes == bytes + 10);
    GC_set_non_gc_bytes(bytes);
}

static NOINLINE void kept_and_given_back(void)
{
#define KEEPS(set, get, value) do { set(value); CHECK(get() == (value)); } while (0)
    CHECK(GC_get_java_finalization() == 1 && GC_get_time_limit() == GC_TIME_UNLIMITED);
    KEEPS(GC_set_dont_precollect, GC_get_dont_precollect, 1);
    KEEPS(GC_set_no_dls, GC_get_no_dls, 0);
    KEEPS(GC_set_force_unmap_on_gcollect, GC_get_force_unmap_on_gcollect, 1);
    KEEPS(GC_set_allocd_bytes_per_finalizer, GC_get_allocd_bytes_per_finalizer, 500);
    KEEPS(GC_set_max_prior_attempts, GC_get_max_prior_attempts, 2);
    KEEPS(GC_set_manual_vdb_allowed, GC_get_manual_vdb_allowed, 0);
    KEEPS(GC_set_pages_executable, GC_get_pages_executable, 0);
    KEEPS(GC_set_finalizer_notifier, GC_get_finalizer_notifier, 0);
    KEEPS(GC_set_await_finalize_proc, GC_get_await_finalize_proc, 0);
    struct GC_timeval_s limit = { 60, 7 };
    GC_set_time_limit_tv(limit);
    CHECK(GC_get_time_limit_tv().tv_ms == 60 && GC_get_time_limit_tv().tv_nsec == 7 && GC_get_time_limit() == 60);
    GC_abort_func abort_was = GC_get_abort_func();
    GC_set_abort_func(abort_was);
    CHECK(GC_get_abort_func() == abort_was);
    GC_set_log_fd(2);
    GC_set_handle_fork(0);
    GC_register_displacement(8);
    GC_debug_register_displacement(8);
    GC_noop1(3);
    int one;
    CHECK(GC_clear_stack(&one) == &one);
}

static NOINLINE void pairs(void)
{
    GC_word divisor = GC_get_free_space_divisor();
    KEEPS(GC_set_free_space_divisor, GC_get_free_space_divisor, 7);
    KEEPS(GC_set_free_space_divisor, GC_get_free_space_divisor, divisor);
    KEEPS(GC_set_finalize_on_demand, GC_get_finalize_on_demand, 1);
    KEEPS(GC_set_java_finalization, GC_get_java_finalization, 1);
    KEEPS(GC_set_max_retries, GC_get_max_retries, 2);
    KEEPS(GC_set_full_freq, GC_get_full_freq, 5);
    KEEPS(GC_set_time_limit, GC_get_time_limit, 9);
    KEEPS(GC_set_rate, GC_get_rate, 12);
    KEEPS(GC_set_min_bytes_allocd, GC_get_min_bytes_allocd, 100);
    KEEPS(GC_set_dont_expand, GC_get_dont_expand, 0);
    KEEPS(GC_set_find_leak, GC_get_find_leak, 0);
    KEEPS(GC_set_disable_automatic_collection, GC_get_disable_automatic_collection, 1);
    KEEPS(GC_set_disable_automatic_collection, GC_get_disable_automatic_collection, 0);
    CHECK(GC_get_version() >> 16 == 8 && GC_is_init_called());
    CHECK(GC_all_interior_pointers == 1 && GC_get_all_interior_pointers() == 1);
    CHECK(GC_should_invoke_finalizers() == 0 && GC_invoke_finalizers() == 0);
}

/* The debugging names: what they answer is used and freed by the debugging names alone. */
static NOINLINE void debugging(void)
{
    char *p = GC_debug_malloc(100, GC_EXTRAS), *q = GC_debug_malloc_atomic(100, GC_EXTRAS);
    CHECK(p && q && GC_base(p) && p[99] == 0);
    strcpy(q, "atomic");
    p = GC_debug_realloc(p, 300, GC_EXTRAS);
    CHECK(p && p[0] == 0 && p[99] == 0);
    GC_debug_free(p);
    q = GC_debug_realloc(q, 900, GC_EXTRAS);
    CHECK(strcmp(q, "atomic") == 0);
    CHECK(strcmp(GC_debug_strdup("text", GC_EXTRAS), "text") == 0 && strcmp(GC_debug_strndup("text", 2, GC_EXTRAS), "te") == 0);
    p = GC_debug_malloc_uncollectable(40, GC_EXTRAS);
    q = GC_debug_malloc_atomic_uncollectable(40, GC_EXTRAS);
    CHECK(p && q);
    GC_debug_free(p);
    GC_debug_free(q);
    CHECK(GC_debug_malloc_ignore_off_page(9000, GC_EXTRAS) && GC_debug_malloc_atomic_ignore_off_page(9000, GC_EXTRAS));
    void **cell = GC_debug_malloc(4 * sizeof *cell, GC_EXTRAS);
    p = GC_debug_malloc_replacement(30);
    p = GC_debug_realloc_replacement(p, 60);
    GC_debug_ptr_store_and_dirty(&cell[0], p);
    CHECK(p && cell[0] == p);
    GC_end_stubborn_change(GC_malloc(20));
    GC_debug_end_stubborn_change(GC_debug_malloc(20, GC_EXTRAS));
    GC_reachable_here(p);
}

/* The program's stop function breaks off the collections that requests begin, too: at once, or in their midst. */
static int polls, least_polls;
static int stops_until(void) { return ++polls < least_polls; }
static int stops_now_and_then(void) { return ++polls % 8 == 0; }

static NOINLINE void ask_for_megabytes(void)
{
    for (int k = 0; k < 40000; k++) GC_reachable_here(GC_malloc(100));
}

static NOINLINE void stop_function(void)
{
    GC_stop_func was = GC_get_stop_func();
    GC_gcollect();
    GC_word count = GC_get_gc_no();
    least_polls = 1 << 30;
    GC_set_stop_func(stops_until);
    ask_for_megabytes();
    CHECK(polls > 0 && GC_get_gc_no() == count);
    least_polls = 0;
    ask_for_megabytes();
    CHECK(GC_get_gc_no() > count);
    count = GC_get_gc_no();
    GC_set_stop_func(stops_now_and_then);
    ask_for_megabytes();
#ifndef OTHER /* bdwgc begins anew each time */
    CHECK(GC_get_gc_no() > count);
#endif
    GC_set_stop_func(was);
}

/* Added roots, all of them taken away: what they named goes, what static data names stays. */
enum { COUNT = 200 };
static GC_word hidden[COUNT];
static void *static_holder;
static void **holders;

static NOINLINE void fill(void)
{
    for (int k = 0; k < COUNT; k++) {
        holders[k] = GC_malloc(48);
        hidden[k] = GC_HIDE_POINTER(holders[k]);
    }
    static_holder = GC_malloc_atomic(48);
    strcpy(static_holder, "static");
}

static NOINLINE void clear_stack(void)
{
    char old[20000];
    explicit_bzero(old, sizeof old);
}

#ifndef OTHER
static NOINLINE int count_kept(void)
{
    int kept = 0;
    for (int k = 0; k < COUNT; k++) kept += GC_base(GC_REVEAL_POINTER(hidden[k])) != NULL;
    return kept;
}
#endif

static NOINLINE void all_roots_go(void)
{
    holders = malloc(COUNT * sizeof *holders);
    GC_add_roots(holders, holders + COUNT);
    fill();
    clear_stack();
    GC_gcollect();
#ifndef OTHER
    CHECK(count_kept() == COUNT);
#endif
    GC_clear_roots();
    clear_stack();
    GC_gcollect();
#ifndef OTHER
    CHECK(count_kept() < COUNT / 3);
#endif
    CHECK(strcmp(static_holder, "static") == 0 && GC_base(static_holder) == static_holder);
    free(holders);
}

/* Static data of the program alone is asked for: it is told each piece of data, with its file and size. */
static int pieces, is_own_seen;
static int note_piece(const char *file, void *start, size_t bytes)
{
    pieces += file != NULL && start != NULL && bytes > 0;
    is_own_seen |= (char *)&pieces >= (char *)start && (char *)&pieces < (char *)start + bytes;
    return 1;
}

static NOINLINE void pieces_of_static_data(void)
{
    GC_register_has_static_roots_callback(note_piece);
    GC_gcollect();
    CHECK(pieces > 1);
#ifndef OTHER /* bdwgc has the program's own data from the beginning on */
    CHECK(is_own_seen);
#endif
    GC_register_has_static_roots_callback(0);
}

static NOINLINE void stack(void)
{
    struct GC_stack_base base, mine;
    CHECK(GC_get_stack_base(&base) == GC_SUCCESS);
    void *handle = GC_get_my_stackbottom(&mine);
    CHECK(mine.mem_base != NULL && (char *)mine.mem_base > (char *)&base);
    GC_set_stackbottom(handle, &mine);
    GC_gcollect();
    CHECK(GC_get_my_stackbottom(&base) == handle && base.mem_base == mine.mem_base);
}

/* The dump is text, in lines of a length that can be read. */
static NOINLINE void dump(void)
{
    static char text[100000];
    int old = dup(1);
    FILE *file = tmpfile();
    fflush(stdout);
    dup2(fileno(file), 1);
    GC_dump();
    GC_dump_named("a name");
    GC_dump_regions();
    GC_dump_finalization();
    fflush(stdout);
    dup2(old, 1);
    close(old);
    rewind(file);
    size_t length = fread(text, 1, sizeof text - 1, file);
    CHECK(length > 200 && strstr(text, "a name") != NULL && strlen(text) == length);
#ifndef OTHER
    CHECK(strstr(text, "Heap: ") && strstr(text, "Ordinary: ") && strstr(text, " disappearing links"));
    for (char *line = strtok(text, "\n"); line; line = strtok(NULL, "\n")) CHECK(strlen(line) < 160);
#endif
    fclose(file);
}

#ifndef OTHER
static void other_abort(const char *message)
{
    fprintf(stderr, "told: %s\n", message);
}
static void with_other_abort(void)
{
    GC_set_abort_func(other_abort);
    GC_free((char *)GC_malloc(64) + 8);
}
static void out_of_room(void)
{
    GC_set_oom_fn((GC_oom_func)GC_abort_on_oom);
    (void)!GC_malloc((size_t)1 << 50);
}
static void executable(void) { GC_set_pages_executable(1); }
static void *volatile sink;

static NOINLINE void stops(void)
{
    CHECK(stops_with(with_other_abort, "told: GC_free of what"));
    CHECK(stops_with(out_of_room, "insufficient memory"));
    CHECK(stops_with(executable, "GC_set_pages_executable"));
    sink = GC_malloc_stubborn(30);
    CHECK(sink != NULL);
    GC_change_stubborn(sink);
    GC_debug_change_stubborn(sink);
    GC_allow_register_threads();
    GC_atfork_prepare();
    GC_atfork_parent();
    GC_atfork_child();
    GC_finalize_all();
    CHECK(GC_unregister_my_thread() == GC_SUCCESS && !GC_thread_is_registered());
    GC_deinit();
    CHECK(GC_malloc(10) != NULL);
}
#endif

/* How many threads mark besides the one that collects: as the environment says, else the program before its first request, else the number
 * of processors that it says, else as many as there are; more than there may be are as many as may be. There are none before the program
 * may have a second thread. */
extern int GC_parallel, GC_get_parallel(void);
extern void GC_set_markers_count(unsigned count), GC_allow_register_threads(void), GC_start_mark_threads(void);
#ifdef OTHER
enum { MOST_MARKERS = 16 };
#else
enum { MOST_MARKERS = 8 };
#endif
static const char *by_environment, *by_processors;
static unsigned by_program;
static int are_markers, starts;

static int markers(void)
{
    struct GC_prof_stats_s stats;
    unsetenv("GC_MARKERS");
    if (by_environment) setenv("GC_MARKERS", by_environment, 1);
    if (by_processors) setenv("GC_NPROCS", by_processors, 1);
    if (by_program) GC_set_markers_count(by_program);
    GC_INIT();
    CHECK(GC_get_parallel() == 0);
    if (starts) GC_start_mark_threads();
    else GC_allow_register_threads();
    GC_gcollect();
    GC_get_prof_stats(&stats, sizeof stats);
    CHECK(GC_get_parallel() == are_markers - 1 && GC_parallel == are_markers - 1 && stats.markers_m1 == (GC_word)(are_markers - 1));
    return failed != 0;
}

static void has_markers(const char *environment, unsigned program, const char *processors, int wanted)
{
    by_environment = environment;
    by_program = program;
    by_processors = processors;
    are_markers = wanted;
    starts = !starts;
    CHECK(status_of(markers) == 0);
}

static int processors(void)
{
    cpu_set_t set;
    int count = sched_getaffinity(0, sizeof set, &set) == 0 ? CPU_COUNT(&set) : 1;
    return count < MOST_MARKERS ? count : MOST_MARKERS;
}

static void all_markers(void)
{
    has_markers(NULL, 0, NULL, processors());
    has_markers("3", 0, NULL, 3);
    has_markers("3", 5, "2", 3);
    has_markers("1", 5, NULL, 1);
    has_markers(NULL, 5, "2", 5);
    has_markers(NULL, 1, NULL, 1);
    has_markers(NULL, 0, "2", 2);
    has_markers(NULL, 0, "1", 1);
    has_markers("0", 0, NULL, MOST_MARKERS);
    has_markers("99", 0, NULL, MOST_MARKERS);
    has_markers("some", 0, NULL, MOST_MARKERS);
    has_markers(NULL, 99, NULL, MOST_MARKERS);
}

#ifndef OTHER
/* A heap of at most one megabyte. */
static int fills(void)
{
    GC_set_warn_proc(GC_ignore_warn_proc);
    size_t bytes = 0;
    for (void **list = NULL, **next; (next = GC_malloc(1000)); list = next) {
        next[0] = list;
        bytes += 1000;
    }
    return bytes > 900000 && GC_get_heap_size() <= 1 << 20 ? 0 : 1;
}
static int fills_set(void)
{
    GC_set_max_heap_size(1 << 20);
    return fills();
}
static int exact_sizes(void)
{
    GC_set_all_interior_pointers(0);
    return GC_size(GC_malloc(16)) == 16 && GC_size(GC_malloc(64)) == 64 ? 0 : 1;
}

static void before_the_heap(void)
{
    CHECK(status_of(fills_set) == 0);
    CHECK(status_of(exact_sizes) == 0);
    CHECK(GC_size(GC_malloc(16)) == 32);
}
#endif

int main(void)
{
    all_markers();
#ifndef OTHER
    before_the_heap();
#endif
    GC_INIT();
    callbacks();
    figures();
    debugging();
    stop_function();
    all_roots_go();
    pieces_of_static_data();
    stack();
    dump();
#ifndef OTHER
    stops();
#endif
    kept_and_given_back();
    pairs();
    return check_ends();
}
