/* bdwgc's gc_typed.h: objects of which the program says which words point. The lowest bit of a bitmap's first word is the object's first
 * word; words behind the bitmap don't point. What doesn't point is weak. */
#ifndef GC_TYPED_H
#define GC_TYPED_H
#include "../gc.h"

#ifdef __cplusplus
extern "C" {
#endif

typedef GC_word *GC_bitmap;
typedef GC_word GC_descr;
#define GC_WORDSZ (8 * sizeof(GC_word))
#define GC_get_bit(bits, k) (((bits)[(k) / GC_WORDSZ] >> ((k) % GC_WORDSZ)) & 1)
#define GC_set_bit(bits, k) ((bits)[(k) / GC_WORDSZ] |= (GC_word)1 << ((k) % GC_WORDSZ))
#define GC_WORD_OFFSET(type, field) (offsetof(type, field) / sizeof(GC_word))
#define GC_WORD_LEN(type) (sizeof(type) / sizeof(GC_word))
#define GC_BITMAP_SIZE(type) ((GC_WORD_LEN(type) + GC_WORDSZ - 1) / GC_WORDSZ)

GC_API GC_descr GC_make_descriptor(const GC_word *bits, size_t count);
GC_API void *GC_malloc_explicitly_typed(size_t bytes, GC_descr type);
GC_API void *GC_malloc_explicitly_typed_ignore_off_page(size_t bytes, GC_descr type);
GC_API void *GC_calloc_explicitly_typed(size_t count, size_t bytes, GC_descr type);
#define GC_MALLOC_EXPLICITLY_TYPED(bytes, type) GC_malloc_explicitly_typed(bytes, type)
#define GC_CALLOC_EXPLICITLY_TYPED(count, bytes, type) GC_calloc_explicitly_typed(count, bytes, type)

#ifdef __cplusplus
}
#endif
#endif
