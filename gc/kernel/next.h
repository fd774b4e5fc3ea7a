// For functions that take the place of the C library's: the one that stands behind this one, as `next`.
#ifndef MPGC_NEXT_H
#define MPGC_NEXT_H
#include "../front.h"
#include <dlfcn.h>
#include <stdatomic.h>
#include <sys/uio.h>

// Threads may look for it at once, and find the same.
UNSEEN __attribute__((noinline, unused)) static uintptr_t mpgc_next(atomic_uintptr_t *kept, const char *name, const char *sentence)
{
    uintptr_t found = atomic_load_explicit(kept, memory_order_relaxed);
    if (found) return found;
    found = (uintptr_t)dlsym(RTLD_NEXT, name);
    if (!found) found = mpgc_linked(name);
    if (!found) mpgc_stop(sentence);
    atomic_store_explicit(kept, found, memory_order_relaxed);
    return found;
}

// Places that one call writes to. A thread keeps few apart from each other open at once: so of many all is, from the lowest to the highest.
struct span { uintptr_t from, to; };
#define NO_SPAN (struct span){ UINTPTR_MAX, 0 }

__attribute__((unused)) static void mpgc_add_to(struct span *span, const void *at, size_t bytes)
{
    uintptr_t from = (uintptr_t)at, to = from + bytes;
    if (!GC_is_heap_ptr(at) || to < from) return;
    if (from < span->from) span->from = from;
    if (to > span->to) span->to = to;
}
__attribute__((unused)) static void mpgc_add_parts_to(struct span *span, const struct iovec *parts, size_t count)
{
    for (size_t k = 0; parts && k < count; k++) mpgc_add_to(span, parts[k].iov_base, parts[k].iov_len);
}
__attribute__((unused)) static void mpgc_will_write_span(const struct span *span)
{
    if (span->from < span->to) mpgc_will_write((void *)span->from, span->to - span->from);
}

__attribute__((unused)) static void mpgc_will_write_parts(const struct iovec *parts, size_t count)
{
    enum { FEW = 4 };
    struct span all = NO_SPAN;
    for (size_t k = 0; parts && k < count && count <= FEW; k++) mpgc_will_write(parts[k].iov_base, parts[k].iov_len);
    if (count <= FEW) return;
    mpgc_add_parts_to(&all, parts, count);
    mpgc_will_write_span(&all);
}

// A thread of the C library's may call a function of the program: nobody sees it made.
__attribute__((unused)) static void mpgc_may_call(const struct sigevent *event)
{
    bool makes_thread = event && event->sigev_notify == SIGEV_THREAD;
    if (makes_thread && !mpgc_is_threaded() && GC_is_init_called() && mpgc_this_thread()) GC_allow_register_threads();
}

// Where a function keeps what stands behind it: libmpgc.so finds all when it is loaded (syscalls.c).
struct sought { atomic_uintptr_t *kept; const char *name; };
#define NEXT(answer, name, words) \
    static atomic_uintptr_t kept_; \
    static struct sought sought_ __attribute__((section("mpgc_sought"), used, aligned(sizeof(struct sought)))) = { &kept_, #name }; \
    answer(*const next) words = (answer(*) words)mpgc_next(&kept_, #name, "the C library has no " #name)

// What the call answers, when the kernel has written what it writes.
#define SAYS(call) do { \
        __typeof__(call) said_ = (call); \
        mpgc_wrote(); \
        return said_; \
    } while (0)

// The function of this name, by which so many bytes may be written there (nothing, where `into` is null): with parameters as declared,
// and as they are handed on.
#define OPENS(answer, name, words, values, into, bytes) \
    SHOWN answer name words \
    { \
        NEXT(answer, name, words); \
        mpgc_will_write(into, bytes); \
        SAYS(next values); \
    }

#endif
