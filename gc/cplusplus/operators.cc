// libmpgccpp, for programs in C++ that say plain `new` and mean objects that the collector reads (gc_cpp.h), as with bdwgc's libgccpp:
// uncollectable objects, which stay until `delete`. Requests of a greater alignment than 16 are the C++ library's.
#include <gc_cpp.h>

static void *asked(size_t size)
{
    void *object = GC_MALLOC_UNCOLLECTABLE(size);
    GC_OP_NEW_OOM_CHECK(object);
    return object;
}

void *operator new(size_t size) { return asked(size); }
void *operator new[](size_t size) { return asked(size); }
void operator delete(void *object) noexcept { GC_FREE(object); }
void operator delete[](void *object) noexcept { GC_FREE(object); }
void operator delete(void *object, size_t) noexcept { GC_FREE(object); }
void operator delete[](void *object, size_t) noexcept { GC_FREE(object); }

// What code calls that was compiled with bdwgc's own gc_cpp.h.
void GC_throw_bad_alloc();
void GC_throw_bad_alloc() { throw std::bad_alloc(); }
