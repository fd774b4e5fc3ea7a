/* bdwgc's gc_inline.h: requests from lists of free objects that a program keeps itself, GC_TINY_FREELISTS pointers that are null at first.
 * They are one thread's, and roots. What is on a list of pointer-free objects is found by its first object alone, since no link in it is
 * read: so no collection may come while there is such a list. The objects are as long as asked for: a pointer just past the end
 * isn't one into them. */
#ifndef GC_INLINE_H
#define GC_INLINE_H
#include "../gc.h"
#include "gc_tiny_fl.h"

#ifdef __GNUC__
#define GC_EXPECT(value, usual) __builtin_expect(value, usual)
#else
#define GC_EXPECT(value, usual) (value)
#endif
#ifndef GC_ASSERT
#ifdef NDEBUG
#define GC_ASSERT(condition)
#else
#include <assert.h>
#define GC_ASSERT(condition) assert(condition)
#endif
#endif
#ifndef GC_PREFETCH_FOR_WRITE
#if defined(__GNUC__) && !defined(GC_NO_PREFETCH_FOR_WRITE)
#define GC_PREFETCH_FOR_WRITE(at) __builtin_prefetch((at), 1)
#else
#define GC_PREFETCH_FOR_WRITE(at) ((void)0)
#endif
#endif

#ifdef __cplusplus
extern "C" {
#endif

#define GC_I_PTRFREE 0
#define GC_I_NORMAL 1
GC_API void GC_generic_malloc_many(size_t bytes, int kind, void **list);
GC_API GC_ATTR_MALLOC GC_ATTR_ALLOC_SIZE(1) void *GC_malloc_kind(size_t bytes, int kind);
#ifdef GC_THREADS
GC_API GC_ATTR_MALLOC GC_ATTR_ALLOC_SIZE(1) void *GC_malloc_kind_global(size_t bytes, int kind);
#else
#define GC_malloc_kind_global GC_malloc_kind
#endif
GC_API void GC_print_free_list(int kind, size_t granules);

/* What a list's place has: null, a count of the requests that were made without it, or its first object. */
#define GC_FAST_MALLOC_IS_OBJECT(entry, num_direct) ((GC_word)(entry) > (GC_word)(num_direct) + GC_TINY_FREELISTS + 1)
#define GC_FAST_MALLOC_IS_DIRECT(entry, num_direct) ((entry) != 0 && (GC_word)(entry) <= (GC_word)(num_direct))

/* An object of `granules` granules, by `tiny_fl`; by `default_expr` if there is no list for it, or where the first `num_direct` granules of that
 * size were not asked for yet, if the list was 1 at first. `init` is done with the object. */
#define GC_FAST_MALLOC_GRANS(result, granules, tiny_fl, num_direct, kind, default_expr, init) \
    do { \
        if (GC_EXPECT((granules) >= GC_TINY_FREELISTS, 0)) { \
            result = (default_expr); \
        } else { \
            void **gc_list = (tiny_fl) + (granules); \
            void *gc_entry = *gc_list; \
            void *gc_next; \
            if (GC_FAST_MALLOC_IS_DIRECT(gc_entry, num_direct)) { \
                *gc_list = (char *)gc_entry + (granules) + 1; \
                result = (default_expr); \
                break; \
            } \
            if (GC_EXPECT(!GC_FAST_MALLOC_IS_OBJECT(gc_entry, num_direct), 0)) { \
                GC_generic_malloc_many((granules) == 0 ? GC_GRANULE_BYTES : GC_RAW_BYTES_FROM_INDEX(granules), kind, gc_list); \
                gc_entry = *gc_list; \
                if (gc_entry == 0) { \
                    result = (*GC_get_oom_fn())((granules) * GC_GRANULE_BYTES); \
                    break; \
                } \
            } \
            result = gc_entry; \
            gc_next = *(void **)gc_entry; \
            *gc_list = gc_next; \
            init; \
            GC_PREFETCH_FOR_WRITE(gc_next); \
            if ((kind) != GC_I_PTRFREE) { \
                GC_end_stubborn_change(gc_list); \
                GC_reachable_here(gc_next); \
            } \
            GC_ASSERT(GC_size(result) >= (granules) * GC_GRANULE_BYTES); \
            GC_ASSERT((kind) == GC_I_PTRFREE || ((GC_word *)(result))[1] == 0); \
        } \
    } while (0)

/* An object of so many words, and of two that are set. */
#define GC_WORDS_TO_WHOLE_GRANULES(words) GC_WORDS_TO_GRANULES((words) + GC_GRANULE_WORDS - 1)
#define GC_MALLOC_WORDS_KIND(result, words, tiny_fl, kind, init) \
    do { \
        size_t gc_granules = GC_WORDS_TO_WHOLE_GRANULES(words); \
        GC_FAST_MALLOC_GRANS(result, gc_granules, tiny_fl, 0, kind, GC_malloc_kind(gc_granules * GC_GRANULE_BYTES, kind), init); \
    } while (0)
#define GC_MALLOC_WORDS(result, words, tiny_fl) GC_MALLOC_WORDS_KIND(result, words, tiny_fl, GC_I_NORMAL, *(void **)(result) = 0)
#define GC_MALLOC_ATOMIC_WORDS(result, words, tiny_fl) GC_MALLOC_WORDS_KIND(result, words, tiny_fl, GC_I_PTRFREE, (void)0)
#define GC_CONS(result, first, second, tiny_fl) \
    do { \
        void *gc_first = (void *)(first); \
        void *gc_second = (void *)(second); \
        GC_MALLOC_WORDS_KIND(result, 2, tiny_fl, GC_I_NORMAL, (void)0); \
        if ((result) != 0) { \
            *(void **)(result) = gc_first; \
            GC_PTR_STORE_AND_DIRTY((void **)(result) + 1, gc_second); \
            GC_reachable_here(gc_first); \
        } \
    } while (0)

#ifdef __cplusplus
}
#endif
#endif
