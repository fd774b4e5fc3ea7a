/* bdwgc's gc_allocator.h, for C++: what containers of the standard library ask for memory.
 *
 *   - `gc_allocator<T>`: collected, and not read where T is known to hold no pointers (GC_DECLARE_PTRFREE);
 *   - `gc_allocator_ignore_off_page<T>`: the same, of large objects to which a pointer near their beginning is kept;
 *   - `traceable_allocator<T>`: read, and there until the container gives it back, so that a container elsewhere may hold pointers.
 *
 * Where there is no room std::bad_alloc is thrown, or the program ends, where GC_NEW_ABORTS_ON_OOM is defined. */
#ifndef GC_ALLOCATOR_H
#define GC_ALLOCATOR_H
#include "../gc.h"
#include <new>

#ifdef GC_NEW_ABORTS_ON_OOM
#define GC_ALLOCATOR_THROW_OR_ABORT() GC_abort_on_oom()
#else
#define GC_ALLOCATOR_THROW_OR_ABORT() throw std::bad_alloc()
#endif

/* Which types hold no pointers. A program may add others. */
struct GC_true_type {};
struct GC_false_type {};
template <class GC_tp> struct GC_type_traits { GC_false_type GC_is_ptr_free; };
#define GC_DECLARE_PTRFREE(T) \
    template <> struct GC_type_traits<T> { GC_true_type GC_is_ptr_free; }
GC_DECLARE_PTRFREE(char);
GC_DECLARE_PTRFREE(signed char);
GC_DECLARE_PTRFREE(unsigned char);
GC_DECLARE_PTRFREE(signed short);
GC_DECLARE_PTRFREE(unsigned short);
GC_DECLARE_PTRFREE(signed int);
GC_DECLARE_PTRFREE(unsigned int);
GC_DECLARE_PTRFREE(signed long);
GC_DECLARE_PTRFREE(unsigned long);
GC_DECLARE_PTRFREE(float);
GC_DECLARE_PTRFREE(double);
GC_DECLARE_PTRFREE(long double);

inline void *GC_answered(void *object)
{
    if (!object) GC_ALLOCATOR_THROW_OR_ABORT();
    return object;
}

template <class GC_tp> inline void *GC_selective_alloc(size_t bytes, GC_tp, bool ignore_off_page)
{
    return GC_answered(ignore_off_page ? GC_MALLOC_IGNORE_OFF_PAGE(bytes) : GC_MALLOC(bytes));
}

template <> inline void *GC_selective_alloc<GC_true_type>(size_t bytes, GC_true_type, bool ignore_off_page)
{
    return GC_answered(ignore_off_page ? GC_MALLOC_ATOMIC_IGNORE_OFF_PAGE(bytes) : GC_MALLOC_ATOMIC(bytes));
}

/* What the allocators have in common. */
template <class GC_tp> class GC_allocator_base {
public:
    typedef size_t size_type;
    typedef ptrdiff_t difference_type;
    typedef GC_tp *pointer;
    typedef const GC_tp *const_pointer;
    typedef GC_tp &reference;
    typedef const GC_tp &const_reference;
    typedef GC_tp value_type;

    pointer address(reference object) const { return &object; }
    const_pointer address(const_reference object) const { return &object; }
    size_type max_size() const GC_NOEXCEPT { return size_t(-1) / sizeof(GC_tp); }
    void construct(pointer at, const GC_tp &value) { new (static_cast<void *>(at)) GC_tp(value); }
    void destroy(pointer at) { at->~GC_tp(); }
    void deallocate(pointer at, size_type) GC_NOEXCEPT { GC_FREE(at); }

protected:
    /* The bytes of so many objects. */
    size_type bytes_of(size_type count) const
    {
        if (count > max_size()) GC_ALLOCATOR_THROW_OR_ABORT();
        return count * sizeof(GC_tp);
    }
};

template <> class GC_allocator_base<void> {
public:
    typedef size_t size_type;
    typedef ptrdiff_t difference_type;
    typedef void *pointer;
    typedef const void *const_pointer;
    typedef void value_type;
};

/* An allocator of this name, whose objects a request makes of the bytes and the type's traits. */
#define GC_DEFINE_ALLOCATOR(name, request) \
    template <class GC_tp> class name : public GC_allocator_base<GC_tp> { \
    public: \
        template <class GC_tp1> struct rebind { typedef name<GC_tp1> other; }; \
        name() GC_NOEXCEPT {} \
        name(const name &other) GC_NOEXCEPT : GC_allocator_base<GC_tp>(other) {} \
        template <class GC_tp1> GC_ATTR_EXPLICIT name(const name<GC_tp1> &) GC_NOEXCEPT {} \
        ~name() GC_NOEXCEPT {} \
        name &operator=(const name &) GC_NOEXCEPT { return *this; } \
        GC_tp *allocate(size_t count, const void * = 0) \
        { \
            GC_type_traits<GC_tp> traits; \
            (void)traits; \
            const size_t bytes = this->bytes_of(count); \
            return static_cast<GC_tp *>(request); \
        } \
    }; \
    template <> class name<void> : public GC_allocator_base<void> { \
    public: \
        template <class GC_tp1> struct rebind { typedef name<GC_tp1> other; }; \
    }; \
    template <class GC_tp1, class GC_tp2> inline bool operator==(const name<GC_tp1> &, const name<GC_tp2> &) GC_NOEXCEPT { return true; } \
    template <class GC_tp1, class GC_tp2> inline bool operator!=(const name<GC_tp1> &, const name<GC_tp2> &) GC_NOEXCEPT { return false; }

GC_DEFINE_ALLOCATOR(gc_allocator, GC_selective_alloc(bytes, traits.GC_is_ptr_free, false))
GC_DEFINE_ALLOCATOR(gc_allocator_ignore_off_page, GC_selective_alloc(bytes, traits.GC_is_ptr_free, true))
GC_DEFINE_ALLOCATOR(traceable_allocator, GC_answered(GC_MALLOC_UNCOLLECTABLE(bytes)))

#endif
