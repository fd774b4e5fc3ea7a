// What addresses point into, and other names of requests. Each is a call that a program may make.
#include "../front.h"

void *GC_base(void *address)
{
    uintptr_t base;
    size_t words;
    return mpgc_find((uintptr_t)address, &base, &words) ? (void *)base : NULL;
}

int GC_is_heap_ptr(const void *address) { return (uintptr_t)address - FIRST < mpgc_pages() * PAGE; }

size_t GC_size(const void *object) { return mpgc_words_of((uintptr_t)object) * WORD; }

size_t GC_get_size_map_at(int bytes)
{
    static const size_t classes[] = { 2, 4, 6, 8, 12, 16, 24, 32, 48, 64, 96, 128, 256 };
    size_t extra = GC_get_all_interior_pointers() ? 1 : 0, words = ((size_t)bytes + extra + WORD - 1) / WORD;
    if (bytes < 0 || words > PAGE / WORD / 2) return (size_t)-1;
    size_t k = 0;
    while (classes[k] < words) k++;
    return classes[k] * WORD;
}

void *GC_malloc_ignore_off_page(size_t bytes) { return GC_malloc(bytes); }

void *GC_malloc_atomic_ignore_off_page(size_t bytes) { return GC_malloc_atomic(bytes); }

void *GC_malloc_stubborn(size_t bytes) { return GC_malloc(bytes); }

void *GC_malloc_many(size_t bytes) { return GC_malloc(bytes); }
