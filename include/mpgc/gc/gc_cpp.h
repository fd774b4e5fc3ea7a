/* bdwgc's gc_cpp.h, for C++: objects of the collected heap.
 *
 *   - `new T`, where T derives from `gc`: collected; where it derives from `gc_cleanup`: destroyed too, once nothing reaches it;
 *   - `new (GC) T` or `new (UseGC) T`, of any type: collected; `new (GC, f, data) T`: f(object, data) is called before it goes;
 *   - `new (PointerFreeGC) T`: collected, and not read; `new (NoGC) T`: read, and there until `delete`;
 *   - `new T` of other types: as with NoGC in a program that is linked with libmpgccpp, as with bdwgc's libgccpp. Else it is the
 *     C++ library's, which the collector doesn't read.
 *
 * `delete` destroys at once. A collected array of a class that derives from `gc_cleanup` has its first object destroyed alone, as in bdwgc.
 * Where there is no room std::bad_alloc is thrown, or the program ends, where GC_NEW_ABORTS_ON_OOM is defined. With GC_NAMESPACE the
 * names of C++ are boehmgc's; with GC_NAME_CONFLICT there is no GC beside UseGC. */
#ifndef GC_CPP_H
#define GC_CPP_H
#include "../gc.h"
#include <new>

#ifdef GC_NEW_ABORTS_ON_OOM
#define GC_OP_NEW_OOM_CHECK(object) \
    do { if (!(object)) GC_abort_on_oom(); } while (0)
#else
#define GC_OP_NEW_OOM_CHECK(object) \
    do { if (!(object)) throw std::bad_alloc(); } while (0)
#endif
#define GC_OPERATOR_NEW_ARRAY
#define GC_PLACEMENT_DELETE
#ifdef GC_NAMESPACE
#define GC_NS_QUALIFY(name) boehmgc::name
namespace boehmgc {
#else
#define GC_NS_QUALIFY(name) name
#endif

enum GCPlacement {
    UseGC,
#ifndef GC_NAME_CONFLICT
    GC = UseGC,
#endif
    NoGC,
    PointerFreeGC
#ifdef GC_ATOMIC_UNCOLLECTABLE
    , PointerFreeNoGC
#endif
};

extern "C" {
typedef void (GC_CALLBACK *GCCleanUpFunc)(void *object, void *data);
}

/* Memory of that placement. */
inline void *GC_request_at(size_t size, GCPlacement placement)
{
    void *object;
    switch (placement) {
    case UseGC: object = GC_MALLOC(size); break;
    case PointerFreeGC: object = GC_MALLOC_ATOMIC(size); break;
#ifdef GC_ATOMIC_UNCOLLECTABLE
    case PointerFreeNoGC: object = GC_MALLOC_ATOMIC_UNCOLLECTABLE(size); break;
#endif
    default: object = GC_MALLOC_UNCOLLECTABLE(size);
    }
    GC_OP_NEW_OOM_CHECK(object);
    return object;
}

/* Objects of this class's kin are collected. A deletion with a placement comes where a constructor throws. */
class gc {
public:
    void *operator new(size_t size) { return GC_request_at(size, UseGC); }
    void *operator new(size_t size, GCPlacement placement) { return GC_request_at(size, placement); }
    void *operator new(size_t, void *at) GC_NOEXCEPT { return at; }
    void *operator new[](size_t size) { return GC_request_at(size, UseGC); }
    void *operator new[](size_t size, GCPlacement placement) { return GC_request_at(size, placement); }
    void *operator new[](size_t, void *at) GC_NOEXCEPT { return at; }
    void operator delete(void *object) GC_NOEXCEPT { GC_FREE(object); }
    void operator delete(void *object, GCPlacement) GC_NOEXCEPT { GC_FREE(object); }
    void operator delete(void *, void *) GC_NOEXCEPT {}
    void operator delete[](void *object) GC_NOEXCEPT { GC_FREE(object); }
    void operator delete[](void *object, GCPlacement) GC_NOEXCEPT { GC_FREE(object); }
    void operator delete[](void *, void *) GC_NOEXCEPT {}
};

/* Objects of this class's kin, or with a member of it, are collected and destroyed before they go. */
class gc_cleanup : virtual public gc {
public:
    inline gc_cleanup();
    inline virtual ~gc_cleanup();

private:
    static inline void GC_CALLBACK cleanup(void *base, void *distance);
};

/* A finalizer that the object has already, as of a part that was made before this one, stays. */
inline gc_cleanup::gc_cleanup()
{
    GC_finalization_proc before = 0;
    void *data = 0, *base = GC_base(static_cast<void *>(this));
    if (!base) return;
    void *distance = reinterpret_cast<void *>(reinterpret_cast<char *>(this) - static_cast<char *>(base));
    GC_register_finalizer_ignore_self(base, cleanup, distance, &before, &data);
    if (before) GC_register_finalizer_ignore_self(base, before, data, 0, 0);
}

inline gc_cleanup::~gc_cleanup()
{
    void *base = GC_base(static_cast<void *>(this));
    if (base) GC_register_finalizer_ignore_self(base, 0, 0, 0, 0);
}

inline void GC_CALLBACK gc_cleanup::cleanup(void *base, void *distance)
{
    reinterpret_cast<gc_cleanup *>(static_cast<char *>(base) + reinterpret_cast<GC_signed_word>(distance))->~gc_cleanup();
}

#ifdef GC_NAMESPACE
}
#endif

/* Objects of any type. */
inline void *operator new(size_t size, GC_NS_QUALIFY(GCPlacement) placement, GC_NS_QUALIFY(GCCleanUpFunc) cleanup = 0, void *data = 0)
{
    void *object = GC_NS_QUALIFY(GC_request_at)(size, placement);
    if (cleanup && placement == GC_NS_QUALIFY(UseGC)) GC_REGISTER_FINALIZER_IGNORE_SELF(object, cleanup, data, 0, 0);
    return object;
}

inline void *operator new[](size_t size, GC_NS_QUALIFY(GCPlacement) placement, GC_NS_QUALIFY(GCCleanUpFunc) cleanup = 0, void *data = 0)
{
    return ::operator new(size, placement, cleanup, data);
}

inline void operator delete(void *object, GC_NS_QUALIFY(GCPlacement), GC_NS_QUALIFY(GCCleanUpFunc), void *) GC_NOEXCEPT { GC_FREE(object); }
inline void operator delete[](void *object, GC_NS_QUALIFY(GCPlacement), GC_NS_QUALIFY(GCCleanUpFunc), void *) GC_NOEXCEPT { GC_FREE(object); }

#endif
