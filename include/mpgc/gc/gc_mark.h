/* bdwgc's gc_mark.h: marks, kinds and roots of the program's own. */
#ifndef GC_MARK_H
#define GC_MARK_H
#include "../gc.h"

#ifdef __cplusplus
extern "C" {
#endif

/* A function that marks what an object of its kind points to, by GC_MARK_AND_PUSH. It runs at a cycle's end, while no other thread does,
 * and makes no request. The two entries of the stack are handed on, and nothing more. */
struct GC_ms_entry { void *opaque; };
typedef struct GC_ms_entry *(*GC_mark_proc)(GC_word *object, struct GC_ms_entry *top, struct GC_ms_entry *limit, GC_word environment);
#define GC_PROC_BYTES 100 /* what a call of it should read, at the least */
#define GC_LOG_MAX_MARK_PROCS 6
#define GC_MAX_MARK_PROCS (1 << GC_LOG_MAX_MARK_PROCS)
#define GC_RESERVED_MARK_PROCS 8
#define GC_GCJ_RESERVED_MARK_PROC_INDEX 0

/* Which words of an object point: so many bytes of them, a bitmap, a function, or a descriptor that stands in the object. */
#define GC_DS_TAG_BITS 2
#define GC_DS_TAGS ((1 << GC_DS_TAG_BITS) - 1)
#define GC_DS_LENGTH 0
#define GC_DS_BITMAP 1
#define GC_DS_PROC 2
#define GC_DS_PER_OBJECT 3
#define GC_INDIR_PER_OBJ_BIAS 0x10
#define GC_MAKE_PROC(number, environment) (((((environment) << GC_LOG_MAX_MARK_PROCS) | (number)) << GC_DS_TAG_BITS) | GC_DS_PROC)

GC_API void *GC_least_plausible_heap_addr;
GC_API void *GC_greatest_plausible_heap_addr;
GC_API struct GC_ms_entry *GC_mark_and_push(void *object, struct GC_ms_entry *top, struct GC_ms_entry *limit, void **from);
#define GC_MARK_AND_PUSH(object, top, limit, from) \
    ((GC_word)(object) >= (GC_word)GC_least_plausible_heap_addr && (GC_word)(object) <= (GC_word)GC_greatest_plausible_heap_addr \
         ? GC_mark_and_push(object, top, limit, from) : (top))

GC_API size_t GC_get_debug_header_size(void);
GC_API size_t GC_debug_header_size;
#define GC_USR_PTR_FROM_BASE(p) ((void *)((char *)(p) + GC_get_debug_header_size()))
GC_API void **GC_new_free_list(void);
GC_API void **GC_new_free_list_inner(void);
GC_API unsigned GC_new_kind(void **list, GC_word descriptor, int adds_size, int clears);
GC_API unsigned GC_new_kind_inner(void **list, GC_word descriptor, int adds_size, int clears);
GC_API unsigned GC_new_proc(GC_mark_proc marks);
GC_API unsigned GC_new_proc_inner(GC_mark_proc marks);
GC_API void *GC_generic_malloc(size_t bytes, int kind);
GC_API void *GC_generic_malloc_ignore_off_page(size_t bytes, int kind);
GC_API void *GC_generic_malloc_uncollectable(size_t bytes, int kind);
GC_API void *GC_generic_or_special_malloc(size_t bytes, int kind);
GC_API void *GC_debug_generic_or_special_malloc(size_t bytes, int kind, ...);
#ifdef GC_DEBUG
#define GC_GENERIC_OR_SPECIAL_MALLOC(bytes, kind) GC_debug_generic_or_special_malloc(bytes, kind, GC_EXTRAS)
#else
#define GC_GENERIC_OR_SPECIAL_MALLOC(bytes, kind) GC_generic_or_special_malloc(bytes, kind)
#endif
GC_API void *GC_malloc_kind(size_t bytes, int kind);
GC_API void *GC_malloc_kind_global(size_t bytes, int kind);
GC_API void GC_generic_malloc_many(size_t bytes, int kind, void **list);
GC_API int GC_get_kind_and_size(const void *base, size_t *bytes);

/* How an object of that kind is told, in at most GC_TYPE_DESCR_LEN bytes: no effect, since none is. */
typedef void (*GC_describe_type_fn)(void *object, char *text);
#define GC_TYPE_DESCR_LEN 40
GC_API void GC_register_describe_type_fn(int kind, GC_describe_type_fn describe);

GC_API int GC_is_marked(const void *base);
GC_API void GC_set_mark_bit(const void *base); /* while roots are taken */
GC_API void GC_clear_mark_bit(const void *base); /* stops */

/* Roots of the program's own: its function is called when roots are taken, and calls the one that was there before. */
typedef void (*GC_push_other_roots_proc)(void);
GC_API GC_push_other_roots_proc GC_push_other_roots;
GC_API void GC_set_push_other_roots(GC_push_other_roots_proc push);
GC_API GC_push_other_roots_proc GC_get_push_other_roots(void);
GC_API void GC_push_all(void *from, void *to);
GC_API void GC_push_all_eager(void *from, void *to);
GC_API void GC_push_conditional(void *from, void *to, int all);
GC_API void GC_push_finalizer_structures(void);
GC_API int GC_is_tmp_root(void *address);

typedef void (*GC_reachable_object_proc)(void *object, size_t bytes, void *data);
GC_API void GC_enumerate_reachable_objects_inner(GC_reachable_object_proc tell, void *data);

#ifdef __cplusplus
}
#endif
#endif
