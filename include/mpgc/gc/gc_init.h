/* GC_INIT, which does by calls what a program's macros ask for. It is a statement, as in bdwgc. gc.h reads it. */
#ifndef MPGC_GC_INIT_H
#define MPGC_GC_INIT_H

/* Before the first request. */
#ifdef GC_DONT_EXPAND
#define GC_INIT_EXPAND GC_set_dont_expand(1)
#else
#define GC_INIT_EXPAND ((void)0)
#endif
#ifdef GC_FORCE_UNMAP_ON_GCOLLECT
#define GC_INIT_UNMAP GC_set_force_unmap_on_gcollect(1)
#else
#define GC_INIT_UNMAP ((void)0)
#endif
#ifdef GC_DONT_GC
#define GC_INIT_RETRIES ((void)(GC_dont_gc = 1))
#elif defined(GC_MAX_RETRIES)
#define GC_INIT_RETRIES GC_set_max_retries(GC_MAX_RETRIES)
#else
#define GC_INIT_RETRIES ((void)0)
#endif
#ifdef GC_ALLOCD_BYTES_PER_FINALIZER
#define GC_INIT_PER_FINALIZER GC_set_allocd_bytes_per_finalizer(GC_ALLOCD_BYTES_PER_FINALIZER)
#else
#define GC_INIT_PER_FINALIZER ((void)0)
#endif
#ifdef GC_FREE_SPACE_DIVISOR
#define GC_INIT_DIVISOR GC_set_free_space_divisor(GC_FREE_SPACE_DIVISOR)
#else
#define GC_INIT_DIVISOR ((void)0)
#endif
#ifdef GC_FULL_FREQ
#define GC_INIT_FREQUENCY GC_set_full_freq(GC_FULL_FREQ)
#else
#define GC_INIT_FREQUENCY ((void)0)
#endif
#ifdef GC_TIME_LIMIT
#define GC_INIT_LIMIT GC_set_time_limit(GC_TIME_LIMIT)
#else
#define GC_INIT_LIMIT ((void)0)
#endif
#if defined(GC_MARKERS) && defined(GC_THREADS)
#define GC_INIT_MARKERS GC_set_markers_count(GC_MARKERS)
#else
#define GC_INIT_MARKERS ((void)0)
#endif
#if defined(GC_SIG_SUSPEND) && defined(GC_THREADS)
#define GC_INIT_SUSPEND GC_set_suspend_signal(GC_SIG_SUSPEND)
#else
#define GC_INIT_SUSPEND ((void)0)
#endif
#if defined(GC_SIG_THR_RESTART) && defined(GC_THREADS)
#define GC_INIT_RESTART GC_set_thr_restart_signal(GC_SIG_THR_RESTART)
#else
#define GC_INIT_RESTART ((void)0)
#endif
#ifdef GC_MAXIMUM_HEAP_SIZE
#define GC_INIT_MAXIMUM GC_set_max_heap_size(GC_MAXIMUM_HEAP_SIZE)
#else
#define GC_INIT_MAXIMUM ((void)0)
#endif

/* Behind it. */
#ifdef GC_IGNORE_WARN
#define GC_INIT_WARN GC_set_warn_proc(GC_ignore_warn_proc)
#else
#define GC_INIT_WARN ((void)0)
#endif
#ifdef GC_INITIAL_HEAP_SIZE
#define GC_INIT_SIZE \
    (void)(GC_get_heap_size() < (GC_INITIAL_HEAP_SIZE) && GC_expand_hp((GC_INITIAL_HEAP_SIZE) - GC_get_heap_size()))
#else
#define GC_INIT_SIZE ((void)0)
#endif

#define GC_INIT() \
    { \
        GC_INIT_EXPAND, GC_INIT_UNMAP, GC_INIT_RETRIES, GC_INIT_PER_FINALIZER, GC_INIT_DIVISOR, GC_INIT_FREQUENCY, GC_INIT_LIMIT; \
        GC_INIT_MARKERS, GC_INIT_SUSPEND, GC_INIT_RESTART, GC_INIT_MAXIMUM; \
        GC_init(); \
        GC_INIT_WARN, GC_INIT_SIZE; \
    }

#endif
