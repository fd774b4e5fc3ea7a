// What else bdwgc's library exports: marks, walks over the heap, printing, and a few names that this layer can't do, each of which stops
// with a sentence. No name is left out, so that no call falls through to a libgc that lies in the same process, whose memory would not be
// read.
#include "awaited.h"
#include <stdio.h>

// Marks. One is set for an object where roots are taken, and else at the next cycle's end by what leads to it. One that was set stays: the
// heap has no call that clears it, since what it leads to may be marked by it alone.
SHOWN int GC_is_marked(const void *base);
int GC_is_marked(const void *base) { return mpgc_is_marked((uintptr_t)base); }
SHOWN void GC_set_mark_bit(const void *base);
void GC_set_mark_bit(const void *base) { mpgc_mark_from((uintptr_t)base); }
SHOWN void GC_clear_mark_bit(const void *base);
void GC_clear_mark_bit(const void *base)
{
    (void)base;
    mpgc_stop("GC_clear_mark_bit: no mark can be taken away in libmpgc");
}
SHOWN void GC_push_finalizer_structures(void);
void GC_push_finalizer_structures(void) { }
SHOWN int GC_is_tmp_root(const void *address);
int GC_is_tmp_root(const void *address)
{
    (void)address;
    return 0;
}

// All objects that are kept and were given out. The caller has the lock, and the function makes no request.
void GC_enumerate_reachable_objects_inner(void (*tell)(void *object, size_t bytes, void *data), void *data)
{
    uintptr_t base, end = FIRST + mpgc_pages() * PAGE;
    size_t words;
    for (uintptr_t at = FIRST; at < end;) {
        bool is_found = mpgc_find(at, &base, &words);
        if (is_found && !mpgc_is_in_run(base)) tell((void *)base, words * WORD, data);
        at = is_found ? base + words * WORD : at + GRANULE;
    }
}

// A program that allocates from lists of its own says what it took and freed.
SHOWN void GC_incr_bytes_allocd(size_t bytes);
void GC_incr_bytes_allocd(size_t bytes)
{
    mpgc_figures.since += bytes / WORD;
    mpgc_figures.taken += bytes / WORD;
}
SHOWN void GC_incr_bytes_freed(size_t bytes);
void GC_incr_bytes_freed(size_t bytes) { mpgc_figures.freed += bytes / WORD; }

// There are no free lists by size, descriptions of types, and records of where a thread's signals are handled: the kernel tells that.
SHOWN void GC_print_free_list(int kind, size_t granules);
void GC_print_free_list(int kind, size_t granules) { printf("No free list of kind %d, %zu granules\n", kind, granules); }
SHOWN void GC_register_describe_type_fn(int kind, void *describe);
void GC_register_describe_type_fn(int kind, void *describe)
{
    (void)kind;
    (void)describe;
}
SHOWN void GC_register_altstack(void *stack, GC_word bytes, void *altstack, GC_word altstack_bytes);
void GC_register_altstack(void *stack, GC_word bytes, void *altstack, GC_word altstack_bytes)
{
    (void)stack;
    (void)bytes;
    (void)altstack;
    (void)altstack_bytes;
}

SHOWN size_t GC_get_debug_header_size(void);
size_t GC_get_debug_header_size(void) { return 0; }
SHOWN size_t GC_debug_header_size = 0;
SHOWN void *GC_least_plausible_heap_addr = (void *)FIRST;
SHOWN void *GC_greatest_plausible_heap_addr = (void *)(FIRST + MAX_PAGES * PAGE);

// What bdwgc prints with.
#define PRINTS(name, file) \
    SHOWN void name(const char *format, ...) __attribute__((format(printf, 1, 2))); \
    void name(const char *format, ...) \
    { \
        va_list rest; \
        va_start(rest, format); \
        vfprintf(file, format, rest); \
        va_end(rest); \
    }
PRINTS(GC_printf, stdout)
PRINTS(GC_err_printf, stderr)
PRINTS(GC_log_printf, stderr)

// Variables by which a program would reach bdwgc's own lists: it faults at once, or finds nothing.
SHOWN void **const GC_objfreelist_ptr = NULL;
SHOWN void **const GC_aobjfreelist_ptr = NULL;
SHOWN void **const GC_uobjfreelist_ptr = NULL;
SHOWN void **const GC_auobjfreelist_ptr = NULL;
SHOWN GC_word GC_arrays[PAGE / WORD];
