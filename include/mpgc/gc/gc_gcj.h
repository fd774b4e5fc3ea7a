/* bdwgc's gc_gcj.h: objects with their type in the first word. All their words are read, whatever the type says. */
#ifndef GC_GCJ_H
#define GC_GCJ_H
#include "../gc.h"

#ifdef __cplusplus
extern "C" {
#endif

GC_API int GC_gcj_kind;
GC_API int GC_gcj_debug_kind;
GC_API void GC_init_gcj_malloc(int number, void *marks);
GC_API void *GC_gcj_malloc(size_t bytes, void *type);
GC_API void *GC_gcj_malloc_ignore_off_page(size_t bytes, void *type);
GC_API void *GC_debug_gcj_malloc(size_t bytes, void *type, ...);
#ifdef GC_DEBUG
#define GC_GCJ_MALLOC(bytes, type) GC_debug_gcj_malloc(bytes, type, GC_EXTRAS)
#define GC_GCJ_MALLOC_IGNORE_OFF_PAGE(bytes, type) GC_debug_gcj_malloc(bytes, type, GC_EXTRAS)
#else
#define GC_GCJ_MALLOC(bytes, type) GC_gcj_malloc(bytes, type)
#define GC_GCJ_MALLOC_IGNORE_OFF_PAGE(bytes, type) GC_gcj_malloc_ignore_off_page(bytes, type)
#endif

#ifdef __cplusplus
}
#endif
#endif
