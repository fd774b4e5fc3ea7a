/* bdwgc's gc_tiny_fl.h: the shape of a program's own lists of free objects, one for each number of granules (gc_inline.h). */
#ifndef GC_TINY_FL_H
#define GC_TINY_FL_H

#define GC_GRANULE_BYTES 16
#define GC_GRANULE_WORDS 2
#define GC_WORDS_TO_GRANULES(words) ((words) / GC_GRANULE_WORDS)
#ifndef GC_TINY_FREELISTS
#define GC_TINY_FREELISTS 25 /* up to 24 granules, 384 bytes; the first is of requests of none */
#endif
#define GC_RAW_BYTES_FROM_INDEX(granules) ((granules) * GC_GRANULE_BYTES)

#endif
