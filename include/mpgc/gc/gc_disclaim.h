/* bdwgc's gc_disclaim.h: functions that are asked before an object goes. Nothing that an object leads to goes before it was asked for. */
#ifndef GC_DISCLAIM_H
#define GC_DISCLAIM_H
#include "../gc.h"

#ifdef __cplusplus
extern "C" {
#endif

typedef int (*GC_disclaim_proc)(void *object);
GC_API void GC_register_disclaim_proc(int kind, GC_disclaim_proc ask, int marks_from_all);

struct GC_finalizer_closure { GC_finalization_proc proc; void *cd; };
GC_API void GC_init_finalized_malloc(void);
GC_API void *GC_finalized_malloc(size_t bytes, const struct GC_finalizer_closure *closure);

#ifdef __cplusplus
}
#endif
#endif
