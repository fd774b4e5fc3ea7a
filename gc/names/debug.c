// The names of requests with the caller's place, which is kept where leaks are looked for. Nothing is checked at an object's ends. Those that
// free are in requests.c.
#include "awaited.h"
#include <string.h>

#define DEBUGS(answer, name, words, bytes, request) \
    answer name words \
    { \
        va_list where; \
        va_start(where, last); \
        answer object = mpgc_note_place(request, bytes, where); \
        va_end(where); \
        return object; \
    }
DEBUGS(void *, GC_debug_malloc, (size_t last, ...), last, GC_malloc(last))
DEBUGS(void *, GC_debug_malloc_atomic, (size_t last, ...), last, GC_malloc_atomic(last))
DEBUGS(void *, GC_debug_malloc_uncollectable, (size_t last, ...), last, GC_malloc_uncollectable(last))
DEBUGS(void *, GC_debug_malloc_atomic_uncollectable, (size_t last, ...), last, GC_malloc_atomic_uncollectable(last))
DEBUGS(void *, GC_debug_malloc_ignore_off_page, (size_t last, ...), last, GC_malloc(last))
DEBUGS(void *, GC_debug_malloc_atomic_ignore_off_page, (size_t last, ...), last, GC_malloc_atomic(last))
DEBUGS(void *, GC_debug_malloc_stubborn, (size_t last, ...), last, GC_malloc(last))
DEBUGS(char *, GC_debug_strdup, (const char *last, ...), last ? strlen(last) + 1 : 0, GC_strdup(last))
DEBUGS(char *, GC_debug_strndup, (const char *text, size_t last, ...), last + 1, GC_strndup(text, last))
void *GC_debug_malloc_replacement(size_t bytes) { return GC_malloc(bytes); }
void GC_debug_change_stubborn(const void *object) { (void)object; }
void GC_debug_end_stubborn_change(const void *object) { (void)object; }
void GC_debug_ptr_store_and_dirty(void *at, const void *word) { GC_ptr_store_and_dirty(at, word); }

// The checks of pointers. Inner pointers all count, and roots are everywhere, so only objects are compared.
static void print_two(void *p, void *q)
{
    (void)p;
    (void)q;
    mpgc_stop("GC_same_obj: two pointers into different objects");
}

static void print_one(void *p)
{
    (void)p;
    mpgc_stop("a pointer is not what it should be");
}

void (*GC_same_obj_print_proc)(void *p, void *q) = print_two;
void (*GC_is_valid_displacement_print_proc)(void *p) = print_one;
void (*GC_is_visible_print_proc)(void *p) = print_one;

void *GC_same_obj(void *p, void *q)
{
    if (GC_base(p) != GC_base(q)) GC_same_obj_print_proc(p, q);
    return p;
}

void *GC_pre_incr(void **p, ptrdiff_t bytes)
{
    void *old = *p;
    *p = (char *)*p + bytes;
    return GC_same_obj(*p, old);
}

void *GC_post_incr(void **p, ptrdiff_t bytes)
{
    void *old = *p;
    *p = (char *)*p + bytes;
    (void)GC_same_obj(*p, old);
    return old;
}

void *GC_is_visible(void *p) { return p; }

void *GC_is_valid_displacement(void *p)
{
    if (GC_is_heap_ptr(p) && !GC_base(p)) GC_is_valid_displacement_print_proc(p);
    return p;
}
