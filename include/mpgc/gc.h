/* mpgc/gc.h: the names of bdwgc's gc.h, over the proved heap of mpheap_c. Beside it, in gc/, lie bdwgc's other headers.
 *
 * A program that was written for bdwgc is compiled with `-I .../include/mpgc` in place of bdwgc's folder and linked with
 * libmpgc, or run as it is with `LD_PRELOAD=libmpgc.so`. Names and meanings are those that bdwgc documents. Three groups:
 *
 *   - what is here and means the same: everything below that isn't in the other two;
 *   - what can be called and has no effect, since what it sets doesn't exist here: these are marked "no effect";
 *   - what isn't here (to take a mark away): these are marked "stops". Such a call writes a sentence to standard error and aborts. No call
 *     is silently wrong.
 *
 * Memory comes in pieces of 16 bytes, is aligned to 16, and is all 0. The heap holds at most 4 GiB, or as much as the process may
 * have; past that a request is out of memory. */
#ifndef MPGC_GC_H
#define MPGC_GC_H
#define GC_H

#include <stddef.h>
#ifdef GC_REQUIRE_WCSDUP
#include <wchar.h>
#endif

#include "gc/gc_version.h"
#include "gc/gc_config_macros.h"

#ifdef __cplusplus
extern "C" {
#endif

typedef void *GC_PTR;
typedef unsigned long GC_word;
typedef long GC_signed_word;

/* What some calls answer. */
#define GC_SUCCESS 0
#define GC_DUPLICATE 1
#define GC_NO_MEMORY 2
#define GC_NO_THREADS 2
#define GC_UNIMPLEMENTED 3
#define GC_NOT_FOUND 4

/* The beginning and the end. GC_init is called by the first request if it wasn't before. It reads from the environment
 * what libmpgc(3) lists: GC_INITIAL_HEAP_SIZE and GC_MAXIMUM_HEAP_SIZE (bytes, with k, M or G behind them), GC_ENABLE_INCREMENTAL,
 * GC_DONT_GC, GC_PRINT_STATS and others. GC_INIT is a statement that does too what the program's macros say (gc/gc_init.h). */
#include "gc/gc_init.h"
GC_API void GC_init(void);
GC_API int GC_is_init_called(void);
GC_API void GC_deinit(void);
GC_API unsigned GC_get_version(void);

/* Requests. The atomic ones are of objects that hold no pointers: the collector doesn't read them. The uncollectable ones
 * stay until GC_free, and are read. Where there is no room, GC_oom_fn answers. */
GC_API GC_ATTR_MALLOC GC_ATTR_ALLOC_SIZE(1) void *GC_malloc(size_t bytes);
GC_API GC_ATTR_MALLOC GC_ATTR_ALLOC_SIZE(1) void *GC_malloc_atomic(size_t bytes);
GC_API GC_ATTR_MALLOC GC_ATTR_ALLOC_SIZE(1) void *GC_malloc_uncollectable(size_t bytes);
GC_API GC_ATTR_MALLOC GC_ATTR_ALLOC_SIZE(1) void *GC_malloc_atomic_uncollectable(size_t bytes);
GC_API GC_ATTR_MALLOC GC_ATTR_ALLOC_SIZE(1) void *GC_malloc_ignore_off_page(size_t bytes);
GC_API GC_ATTR_MALLOC GC_ATTR_ALLOC_SIZE(1) void *GC_malloc_atomic_ignore_off_page(size_t bytes);
GC_API GC_ATTR_MALLOC GC_ATTR_ALLOC_SIZE(1) void *GC_malloc_stubborn(size_t bytes);
GC_API GC_ATTR_MALLOC void *GC_malloc_many(size_t bytes); /* a list of objects, linked by their first words: here, of one */
#define GC_NEXT(p) (*(void **)(p))
GC_API GC_ATTR_MALLOC GC_ATTR_ALLOC_SIZE(2) void *GC_memalign(size_t align, size_t bytes);
GC_API int GC_posix_memalign(void **result, size_t align, size_t bytes);
GC_API GC_ATTR_ALLOC_SIZE(2) void *GC_realloc(void *old, size_t bytes);
GC_API void GC_free(void *base);
GC_API GC_ATTR_MALLOC char *GC_strdup(const char *text);
GC_API GC_ATTR_MALLOC char *GC_strndup(const char *text, size_t most);
#ifdef GC_REQUIRE_WCSDUP
GC_API GC_ATTR_MALLOC wchar_t *GC_wcsdup(const wchar_t *text);
#endif

/* What an address points into. */
GC_API void *GC_base(void *address);
GC_API size_t GC_size(const void *base);
GC_API int GC_is_heap_ptr(const void *address);

/* Collections. GC_disable and GC_enable are counted. */
typedef int (*GC_stop_func)(void);
GC_API void GC_gcollect(void);
GC_API void GC_gcollect_and_unmap(void);
GC_API int GC_try_to_collect(GC_stop_func stop);
GC_API void GC_set_stop_func(GC_stop_func stop);
GC_API GC_stop_func GC_get_stop_func(void);
GC_API int GC_collect_a_little(void);
GC_API void GC_enable_incremental(void);
GC_API void GC_enable_collector_thread(void); /* not bdwgc's: incremental mode, whose steps a thread of the collector's own makes */
GC_API int GC_is_incremental_mode(void);
GC_API void GC_start_incremental_collection(void);
GC_API void GC_disable(void);
GC_API void GC_enable(void);
GC_API int GC_is_disabled(void);

/* While a cycle marks, pages of ordinary objects are write-protected, and never those of atomic ones. A system call that the
 * program makes and that writes into an ordinary object then answers EFAULT, as with bdwgc; libmpgc.so opens the pages first
 * for read, recv, stat, poll, select, wait and their kin, fread, getcwd, readlink, pipe, accept and its kin, clocks and timers,
 * random bytes and ioctl (docs/programs/SYSTEM_CALLS.md has them all). Use atomic objects as buffers of others. */
#define GC_PROTECTS_NONE 0
#define GC_PROTECTS_POINTER_HEAP 1
#define GC_PROTECTS_PTRFREE_HEAP 2
#define GC_PROTECTS_STATIC_DATA 4
#define GC_PROTECTS_STACK 8
GC_API int GC_incremental_protection_needs(void);

/* Roots besides the stack, the registers, static data and thread-local data of each thread. */
typedef int (*GC_has_static_roots_func)(const char *file, void *start, size_t bytes);
GC_API void GC_add_roots(void *from, void *to);
GC_API void GC_remove_roots(void *from, void *to);
GC_API void GC_clear_roots(void);
GC_API void GC_exclude_static_roots(void *from, void *to);
GC_API void GC_clear_exclusion_table(void);
GC_API void GC_register_has_static_roots_callback(GC_has_static_roots_func is_scanned);
GC_API void GC_set_no_dls(int on);
GC_API int GC_get_no_dls(void);
GC_API void GC_register_displacement(size_t displacement); /* no effect: every inner pointer counts */
GC_API void GC_debug_register_displacement(size_t displacement);

/* How large the heap is, and how it grows. */
GC_API int GC_expand_hp(size_t bytes);
GC_API void GC_set_max_heap_size(GC_word bytes);
GC_API void GC_set_free_space_divisor(GC_word divisor);
GC_API GC_word GC_get_free_space_divisor(void);
GC_API void GC_set_all_interior_pointers(int on);
GC_API int GC_get_all_interior_pointers(void);
GC_API void GC_set_disable_automatic_collection(int on);
GC_API int GC_get_disable_automatic_collection(void);

/* Figures. */
struct GC_prof_stats_s {
    GC_word heapsize_full, free_bytes_full, unmapped_bytes, bytes_allocd_since_gc, allocd_bytes_before_gc, non_gc_bytes;
    GC_word gc_no, markers_m1, bytes_reclaimed_since_gc, reclaimed_bytes_before_gc, expl_freed_bytes_since_gc;
    GC_word obtained_from_os_bytes;
};
GC_API GC_word GC_get_gc_no(void);
GC_API size_t GC_get_heap_size(void);
GC_API size_t GC_get_free_bytes(void);
GC_API size_t GC_get_unmapped_bytes(void);
GC_API size_t GC_get_bytes_since_gc(void);
GC_API size_t GC_get_expl_freed_bytes_since_gc(void);
GC_API size_t GC_get_total_bytes(void);
GC_API size_t GC_get_obtained_from_os_bytes(void);
GC_API size_t GC_get_memory_use(void);
GC_API size_t GC_get_size_map_at(int bytes);
GC_API GC_word GC_get_non_gc_bytes(void);
GC_API void GC_set_non_gc_bytes(GC_word bytes);
GC_API void GC_get_heap_usage_safe(GC_word *heap, GC_word *free, GC_word *unmapped, GC_word *since, GC_word *total);
GC_API size_t GC_get_prof_stats(struct GC_prof_stats_s *stats, size_t bytes);
GC_API size_t GC_get_prof_stats_unsafe(struct GC_prof_stats_s *stats, size_t bytes);
GC_API void GC_start_performance_measurement(void);
GC_API unsigned long GC_get_full_gc_total_time(void);
GC_API void GC_dump(void);
GC_API void GC_dump_named(const char *name);
GC_API void GC_dump_regions(void);
GC_API void GC_dump_finalization(void);

/* What the program is told. */
typedef void *(*GC_oom_func)(size_t bytes);
typedef void (*GC_warn_proc)(char *format, GC_word number);
typedef void (*GC_abort_func)(const char *message);
typedef void (*GC_on_heap_resize_proc)(GC_word bytes);
typedef enum {
    GC_EVENT_START, GC_EVENT_MARK_START, GC_EVENT_MARK_END, GC_EVENT_RECLAIM_START, GC_EVENT_RECLAIM_END, GC_EVENT_END,
    GC_EVENT_PRE_STOP_WORLD, GC_EVENT_POST_STOP_WORLD, GC_EVENT_PRE_START_WORLD, GC_EVENT_POST_START_WORLD,
    GC_EVENT_THREAD_SUSPENDED, GC_EVENT_THREAD_UNSUSPENDED
} GC_EventType;
typedef void (*GC_on_collection_event_proc)(GC_EventType event);
typedef void (*GC_on_thread_event_proc)(GC_EventType event, void *thread);
typedef void (*GC_start_callback_proc)(void);
GC_API void GC_set_oom_fn(GC_oom_func answer);
GC_API GC_oom_func GC_get_oom_fn(void);
GC_API void GC_set_warn_proc(GC_warn_proc warn);
GC_API GC_warn_proc GC_get_warn_proc(void);
GC_API void GC_ignore_warn_proc(char *format, GC_word number);
GC_API void GC_set_abort_func(GC_abort_func tell);
GC_API GC_abort_func GC_get_abort_func(void);
GC_API void GC_abort_on_oom(void);
GC_API void GC_set_on_heap_resize(GC_on_heap_resize_proc tell);
GC_API GC_on_heap_resize_proc GC_get_on_heap_resize(void);
GC_API void GC_set_on_collection_event(GC_on_collection_event_proc tell);
GC_API GC_on_collection_event_proc GC_get_on_collection_event(void);
GC_API void GC_set_on_thread_event(GC_on_thread_event_proc tell);
GC_API GC_on_thread_event_proc GC_get_on_thread_event(void);
GC_API void GC_set_start_callback(GC_start_callback_proc tell);
GC_API GC_start_callback_proc GC_get_start_callback(void);
GC_API void GC_set_log_fd(int file);

/* The stack, and calls of functions. */
struct GC_stack_base { void *mem_base; };
typedef void *(*GC_fn_type)(void *data);
typedef void *(*GC_stack_base_func)(struct GC_stack_base *base, void *data);
GC_API int GC_get_stack_base(struct GC_stack_base *base);
GC_API void *GC_get_my_stackbottom(struct GC_stack_base *base);
GC_API void GC_set_stackbottom(void *thread, const struct GC_stack_base *base);
GC_API void *GC_call_with_stack_base(GC_stack_base_func function, void *data);
GC_API void *GC_call_with_alloc_lock(GC_fn_type function, void *data);
GC_API void *GC_call_with_gc_active(GC_fn_type function, void *data);
GC_API void *GC_do_blocking(GC_fn_type function, void *data);
GC_API void *GC_clear_stack(void *answer);
#ifdef GC_THREADS
GC_API void GC_alloc_lock(void);
GC_API void GC_alloc_unlock(void);
#else
#define GC_alloc_lock() ((void)0)
#define GC_alloc_unlock() ((void)0)
#endif

/* Pointers that are hidden, kept, written and checked. */
typedef GC_word GC_hidden_pointer;
#define GC_HIDE_POINTER(p) (~(GC_hidden_pointer)(p))
#define GC_REVEAL_POINTER(p) ((void *)GC_HIDE_POINTER(p))
#if defined(I_HIDE_POINTERS) || defined(GC_I_HIDE_POINTERS)
#define HIDE_POINTER(p) GC_HIDE_POINTER(p)
#define REVEAL_POINTER(p) GC_REVEAL_POINTER(p)
#endif
GC_API void GC_noop1(GC_word word);
#ifdef __GNUC__
#define GC_reachable_here(p) __asm__ __volatile__(" " : : "X"(p) : "memory")
#else
#define GC_reachable_here(p) GC_noop1((GC_word)(p))
#endif
GC_API void GC_change_stubborn(const void *object);     /* no effect: every write is seen */
GC_API void GC_end_stubborn_change(const void *object); /* the same */
GC_API void GC_ptr_store_and_dirty(void *at, const void *word);
GC_API void *GC_same_obj(void *p, void *q);
GC_API void *GC_pre_incr(void **p, ptrdiff_t bytes);
GC_API void *GC_post_incr(void **p, ptrdiff_t bytes);
GC_API void *GC_is_visible(void *p);
GC_API void *GC_is_valid_displacement(void *p);
GC_API void (*GC_same_obj_print_proc)(void *p, void *q);
GC_API void (*GC_is_valid_displacement_print_proc)(void *p);
GC_API void (*GC_is_visible_print_proc)(void *p);
#define GC_PTR_ADD(x, n) ((x) + (n))
#define GC_PRE_INCR(x, n) ((x) += (n))
#define GC_POST_INCR(x) ((x)++)
#define GC_POST_DECR(x) ((x)--)
#define GC_PTR_STORE(p, q) (*(void **)(p) = (void *)(q))

/* Disappearing links, as many as there is memory for: the word is cleared at the end of the collection that takes the object, a long
 * link's behind finalizers. An object that GC_free takes counts as taken by the next collection, unless its memory is in use again by then.
 * The object has to be one of the heap, else it stops; so does a word that isn't aligned. */
GC_API int GC_general_register_disappearing_link(void **link, const void *object);
GC_API int GC_register_disappearing_link(void **link);
GC_API int GC_unregister_disappearing_link(void **link);
GC_API int GC_move_disappearing_link(void **link, void **new_link);
GC_API int GC_register_long_link(void **link, const void *object);
GC_API int GC_unregister_long_link(void **link);
GC_API int GC_move_long_link(void **link, void **new_link);

/* Finalizers: called once nothing reaches the object, in bdwgc's order, by a request or by GC_invoke_finalizers; or by that one alone,
 * where GC_finalize_on_demand is set, and then the notifier is told. Outside of the heap none is registered. */
typedef void (*GC_finalization_proc)(void *object, void *data);
typedef void (*GC_finalizer_notifier_proc)(void);
typedef void (*GC_await_finalize_proc)(void *object);
GC_API void GC_register_finalizer(void *, GC_finalization_proc, void *, GC_finalization_proc *, void **);
GC_API void GC_register_finalizer_ignore_self(void *, GC_finalization_proc, void *, GC_finalization_proc *, void **);
GC_API void GC_register_finalizer_no_order(void *, GC_finalization_proc, void *, GC_finalization_proc *, void **);
GC_API void GC_register_finalizer_unreachable(void *, GC_finalization_proc, void *, GC_finalization_proc *, void **);
GC_API void GC_debug_register_finalizer(void *, GC_finalization_proc, void *, GC_finalization_proc *, void **);
GC_API void GC_debug_register_finalizer_ignore_self(void *, GC_finalization_proc, void *, GC_finalization_proc *, void **);
GC_API void GC_debug_register_finalizer_no_order(void *, GC_finalization_proc, void *, GC_finalization_proc *, void **);
GC_API void GC_debug_register_finalizer_unreachable(void *, GC_finalization_proc, void *, GC_finalization_proc *, void **);
GC_API int GC_should_invoke_finalizers(void);
GC_API int GC_invoke_finalizers(void);
GC_API void GC_finalize_all(void);

GC_API void GC_set_finalize_on_demand(int on);
GC_API int GC_get_finalize_on_demand(void);
GC_API void GC_set_java_finalization(int on);
GC_API int GC_get_java_finalization(void);
GC_API void GC_set_finalizer_notifier(GC_finalizer_notifier_proc tell);
GC_API GC_finalizer_notifier_proc GC_get_finalizer_notifier(void);
GC_API void GC_set_await_finalize_proc(GC_await_finalize_proc tell);
GC_API GC_await_finalize_proc GC_get_await_finalize_proc(void);

/* Toggle references: before a collection the function says of each whether it stays, may go, or isn't asked for any more. */
typedef enum { GC_TOGGLE_REF_DROP, GC_TOGGLE_REF_STRONG, GC_TOGGLE_REF_WEAK } GC_ToggleRefStatus;
typedef GC_ToggleRefStatus (*GC_toggleref_func)(void *object);
GC_API void GC_set_toggleref_func(GC_toggleref_func ask);
GC_API GC_toggleref_func GC_get_toggleref_func(void);
GC_API int GC_toggleref_add(void *object, int is_strong);

/* Kept and given back, with no other effect. */
GC_API void GC_set_dont_expand(int on);
GC_API int GC_get_dont_expand(void);
GC_API void GC_set_dont_precollect(int on);
GC_API int GC_get_dont_precollect(void);
GC_API void GC_set_full_freq(int often);
GC_API int GC_get_full_freq(void);
GC_API void GC_set_max_retries(GC_word most);
GC_API GC_word GC_get_max_retries(void);
GC_API void GC_set_max_prior_attempts(int most);
GC_API int GC_get_max_prior_attempts(void);
GC_API void GC_set_rate(int pages);
GC_API int GC_get_rate(void);
#define GC_TIME_UNLIMITED 999999
struct GC_timeval_s { unsigned long tv_ms; unsigned long tv_nsec; };
GC_API void GC_set_time_limit(unsigned long ms);
GC_API unsigned long GC_get_time_limit(void);
GC_API void GC_set_time_limit_tv(struct GC_timeval_s limit);
GC_API struct GC_timeval_s GC_get_time_limit_tv(void);
GC_API void GC_set_allocd_bytes_per_finalizer(GC_word bytes);
GC_API GC_word GC_get_allocd_bytes_per_finalizer(void);
GC_API void GC_set_min_bytes_allocd(size_t bytes);
GC_API size_t GC_get_min_bytes_allocd(void);
GC_API void GC_set_force_unmap_on_gcollect(int on);
GC_API int GC_get_force_unmap_on_gcollect(void);
GC_API void GC_set_manual_vdb_allowed(int on);
GC_API int GC_get_manual_vdb_allowed(void);

/* Where it is on, each collection tells on standard error of what is reached no more and wasn't freed, which then is gone. */
GC_API void GC_set_find_leak(int on);
GC_API int GC_get_find_leak(void);

/* Kept where they ask for what is so, and stop where they ask for what isn't here. */
GC_API void GC_set_pages_executable(int on);
GC_API int GC_get_pages_executable(void);
GC_API void GC_set_handle_fork(int on); /* no effect: a child of fork has the heap as it was */
GC_API void GC_atfork_prepare(void);
GC_API void GC_atfork_parent(void);
GC_API void GC_atfork_child(void);

/* Variables that bdwgc lets a program read, or write before the first request. */
GC_API GC_word GC_gc_no;
GC_API int GC_dont_gc;
GC_API int GC_dont_expand;
GC_API int GC_dont_precollect;
GC_API int GC_all_interior_pointers;
GC_API int GC_find_leak;
GC_API int GC_finalize_on_demand;
GC_API int GC_java_finalization;
GC_API int GC_use_entire_heap;
GC_API int GC_full_freq;
GC_API int GC_no_dls;
GC_API int GC_parallel;
GC_API GC_word GC_non_gc_bytes;
GC_API GC_word GC_free_space_divisor;
GC_API GC_word GC_max_retries;
GC_API unsigned long GC_time_limit;
GC_API char *GC_stackbottom;
GC_API GC_oom_func GC_oom_fn;
GC_API GC_on_heap_resize_proc GC_on_heap_resize;
GC_API GC_finalizer_notifier_proc GC_finalizer_notifier;

/* Requests with the caller's place, which is kept where leaks are looked for. Nothing is checked at an object's ends. */
#define GC_EXTRAS __FILE__, __LINE__
#define GC_EXTRA_PARAMS const char *file, int line
GC_API void *GC_debug_malloc(size_t bytes, ...);
GC_API void *GC_debug_malloc_atomic(size_t bytes, ...);
GC_API void *GC_debug_malloc_uncollectable(size_t bytes, ...);
GC_API void *GC_debug_malloc_atomic_uncollectable(size_t bytes, ...);
GC_API void *GC_debug_malloc_ignore_off_page(size_t bytes, ...);
GC_API void *GC_debug_malloc_atomic_ignore_off_page(size_t bytes, ...);
GC_API void *GC_debug_malloc_stubborn(size_t bytes, ...);
GC_API void *GC_debug_realloc(void *old, size_t bytes, ...);
GC_API char *GC_debug_strdup(const char *text, ...);
GC_API char *GC_debug_strndup(const char *text, size_t most, ...);
GC_API void GC_debug_free(void *base);
GC_API void *GC_debug_malloc_replacement(size_t bytes);
GC_API void *GC_debug_realloc_replacement(void *old, size_t bytes);
GC_API void GC_debug_change_stubborn(const void *object);
GC_API void GC_debug_end_stubborn_change(const void *object);
GC_API void GC_debug_ptr_store_and_dirty(void *at, const void *word);

#ifdef GC_DEBUG
#define GC_MALLOC(n) GC_debug_malloc(n, GC_EXTRAS)
#define GC_MALLOC_ATOMIC(n) GC_debug_malloc_atomic(n, GC_EXTRAS)
#define GC_MALLOC_UNCOLLECTABLE(n) GC_debug_malloc_uncollectable(n, GC_EXTRAS)
#define GC_MALLOC_ATOMIC_UNCOLLECTABLE(n) GC_debug_malloc_atomic_uncollectable(n, GC_EXTRAS)
#define GC_MALLOC_IGNORE_OFF_PAGE(n) GC_debug_malloc_ignore_off_page(n, GC_EXTRAS)
#define GC_MALLOC_ATOMIC_IGNORE_OFF_PAGE(n) GC_debug_malloc_atomic_ignore_off_page(n, GC_EXTRAS)
#define GC_MALLOC_STUBBORN(n) GC_debug_malloc_stubborn(n, GC_EXTRAS)
#define GC_REALLOC(old, n) GC_debug_realloc(old, n, GC_EXTRAS)
#define GC_STRDUP(s) GC_debug_strdup(s, GC_EXTRAS)
#define GC_STRNDUP(s, n) GC_debug_strndup(s, n, GC_EXTRAS)
#else
#define GC_MALLOC(n) GC_malloc(n)
#define GC_MALLOC_ATOMIC(n) GC_malloc_atomic(n)
#define GC_MALLOC_UNCOLLECTABLE(n) GC_malloc_uncollectable(n)
#define GC_MALLOC_ATOMIC_UNCOLLECTABLE(n) GC_malloc_atomic_uncollectable(n)
#define GC_MALLOC_IGNORE_OFF_PAGE(n) GC_malloc_ignore_off_page(n)
#define GC_MALLOC_ATOMIC_IGNORE_OFF_PAGE(n) GC_malloc_atomic_ignore_off_page(n)
#define GC_MALLOC_STUBBORN(n) GC_malloc(n)
#define GC_REALLOC(old, n) GC_realloc(old, n)
#define GC_STRDUP(s) GC_strdup(s)
#define GC_STRNDUP(s, n) GC_strndup(s, n)
#endif
#define GC_WCSDUP(s) GC_wcsdup(s)
#define GC_FREE(p) GC_free(p)
#define GC_NEW(t) ((t *)GC_MALLOC(sizeof(t)))
#define GC_NEW_ATOMIC(t) ((t *)GC_MALLOC_ATOMIC(sizeof(t)))
#define GC_NEW_UNCOLLECTABLE(t) ((t *)GC_MALLOC_UNCOLLECTABLE(sizeof(t)))
#define GC_NEW_STUBBORN(t) GC_NEW(t)
#define GC_CHANGE_STUBBORN(p) GC_change_stubborn(p)
#define GC_END_STUBBORN_CHANGE(p) GC_end_stubborn_change(p)
#define GC_PTR_STORE_AND_DIRTY(p, q) GC_ptr_store_and_dirty(p, q)
#define GC_REGISTER_DISPLACEMENT(n) GC_register_displacement(n)
#define GC_REGISTER_FINALIZER(p, f, d, of, od) GC_register_finalizer(p, f, d, of, od)
#define GC_REGISTER_FINALIZER_IGNORE_SELF(p, f, d, of, od) GC_register_finalizer_ignore_self(p, f, d, of, od)
#define GC_REGISTER_FINALIZER_NO_ORDER(p, f, d, of, od) GC_register_finalizer_no_order(p, f, d, of, od)
#define GC_REGISTER_FINALIZER_UNREACHABLE(p, f, d, of, od) GC_register_finalizer_unreachable(p, f, d, of, od)
#define GC_GENERAL_REGISTER_DISAPPEARING_LINK(link, object) GC_general_register_disappearing_link(link, object)
#define GC_REGISTER_LONG_LINK(link, object) GC_register_long_link(link, object)

/* Threads. Those are known that were made by the names below, or, under LD_PRELOAD and with libmpgc.so, in any way; others after
 * GC_allow_register_threads from their first request on, or from GC_register_my_thread. */
GC_API int GC_thread_is_registered(void);
GC_API int GC_register_my_thread(const struct GC_stack_base *base);
GC_API int GC_unregister_my_thread(void);
GC_API void GC_allow_register_threads(void);
GC_API int GC_get_parallel(void);
GC_API void GC_set_markers_count(unsigned count);
GC_API void GC_start_mark_threads(void);
#ifdef GC_THREADS
GC_API int GC_get_suspend_signal(void); /* SIGPWR, or that which was set before the first call */
GC_API void GC_set_suspend_signal(int number);
GC_API int GC_get_thr_restart_signal(void);
GC_API void GC_set_thr_restart_signal(int number); /* it is told, and has no effect */
GC_API void GC_register_altstack(void *stack, GC_word bytes, void *altstack, GC_word altstack_bytes); /* no effect */
GC_API void GC_stop_world_external(void);
GC_API void GC_start_world_external(void);
#endif

#ifdef __cplusplus
}
#endif

#include "gc/gc_pthread_redirects.h"
#endif
