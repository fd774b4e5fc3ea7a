// Objects at aligned addresses. It makes requests as a program does.
#include "../front.h"
#include <errno.h>

// An object of more than half a page begins with a page. Else, inner pointers count, so an aligned address in a larger object will do.
void *GC_memalign(size_t align, size_t bytes)
{
    if (align <= GRANULE) return GC_malloc(bytes);
    bool divides_pages = PAGE % align == 0, fills_page = align > PAGE / 2 || bytes > PAGE / 2;
    if (divides_pages && fills_page) return GC_malloc(bytes > PAGE / 2 ? bytes : PAGE / 2 + 1);
    if (bytes > SIZE_MAX - align) return mpgc_out_of_memory(bytes);
    char *object = GC_malloc(bytes + align - 1);
    size_t past = (uintptr_t)object % align;
    return GC_is_heap_ptr(object) && past != 0 ? object + (align - past) : object;
}

int GC_posix_memalign(void **result, size_t align, size_t bytes)
{
    if (align % sizeof(void *) != 0 || align == 0 || (align & (align - 1)) != 0) return EINVAL;
    void *object = GC_memalign(align, bytes);
    if (!object) return ENOMEM;
    *result = object;
    return 0;
}
