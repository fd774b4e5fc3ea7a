// What the layer knows of pages: what each was last given to, how many the heap has, which are to be swept, and which objects stay
// whatever points into them. Trusted, not proved.
//
// It rests on one fact of the core (heap_spec, Room): a page that holds objects holds objects of one kind.
// Counted under the rest.
#include "layer.h"
#include <sys/resource.h>
#include <sys/syscall.h>

static size_t count[4];  // of pages of each kind, but fresh ones

// Objects of this kind came to lie on the page, or none do. It is one call: a handler that makes requests would be given others that lie there,
// and write to them before the page is told.
static void learn_page(size_t page, enum page_kind kind)
{
    if (kind == mpgc.kind[page]) return;
    mpgc_inner_call_begins();
    count[mpgc.kind[page]]--;
    count[kind]++;
    mpgc.kind[page] = (uint8_t)kind;
    if (kind == ORDINARY && mpgc.is_marking) mpgc_holds_ordinary(page);
    mpgc_inner_call_ends();
    if (kind == POINTER_FREE) mpgc_holds_pointer_free(page);
}

// An object was allocated. Answers false, and has learnt nothing, if it lies past what the heap may use.
bool mpgc_learn(uintptr_t base, size_t words, enum page_kind kind)
{
    size_t first = mpgc_page_of(base), last = mpgc_page_of(base + words * WORD - 1);
    if (last >= mpgc.size && !mpgc_grow(last + 1)) return false;
    for (size_t page = first; page <= last; page++) learn_page(page, kind);
    return true;
}

enum page_kind mpgc_kind_at(uintptr_t address) { return mpgc_is_inside(address) ? mpgc.kind[mpgc_page_of(address)] : FRESH; }

UNSEEN size_t mpgc_pages_of(enum page_kind kind) { return count[kind]; }

size_t mpgc_used_pages(void) { return mpgc.all - mpgc_free_pages(); }

// Pages that a figure of the core counts.
#define COUNTS(name, figure) \
    size_t name(void) \
    { \
        size_t pages; \
        mpgc_enter(); \
        CALL(pages, figure(&mpgc.heap)); \
        return pages; \
    }
COUNTS(mpgc_free_pages, mpheap_free_pages)
COUNTS(mpgc_ever_used_pages, mpheap_used_pages)
COUNTS(mpgc_pending_pages, mpheap_pending_pages)
COUNTS(mpgc_dirty_pages, mpheap_dirty_pages)

// So many pages are swept, if there are. Answers whether there were.
bool mpgc_sweep_some(size_t pages)
{
    uint64_t swept = 1;
    for (; pages > 0 && swept == 1; pages--) GRANTED(mpheap_sweep(&mpgc.heap, &swept));
    return swept == 1;
}

// So many pages a limit of the process leaves. The heap's addresses are there, so where the program has lowered one since, the kernel
// refuses none of them.
static size_t allowed(void)
{
    static const int limits[] = { RLIMIT_AS, RLIMIT_DATA };
    size_t least = MAX_PAGES;
    for (size_t k = 0; k < sizeof limits / sizeof *limits; k++) {
        struct rlimit64 one;
        if (mpgc_call_kernel(SYS_prlimit64, 0, limits[k], NULL, &one) == 0 && one.rlim_cur / PAGE < least) least = one.rlim_cur / PAGE;
    }
    return least;
}

// Whether the heap may have so many pages. The kernel is asked once for each block of them.
bool mpgc_may_have(size_t pages)
{
    if (pages <= mpgc.size) return true;
    if (pages > mpgc.all || pages > mpgc_figures.limit) return false;
    return pages / BLOCK == mpgc.size / BLOCK || pages <= allowed();
}

// The heap has at least so many pages from now on, if it may.
bool mpgc_grow(size_t pages)
{
    if (!mpgc_may_have(pages)) return false;
    if (pages <= mpgc.size) return true;
    __atomic_store_n(&mpgc.size, pages, __ATOMIC_RELAXED);
    if (GC_on_heap_resize) GC_on_heap_resize(pages * PAGE);
    return true;
}

// Also without the lock: there may be more by then, and never fewer.
size_t mpgc_pages(void) { return __atomic_load_n(&mpgc.size, __ATOMIC_RELAXED); }

bool mpgc_is_uncollectable(uintptr_t base)
{
    size_t granule = (base - FIRST) / GRANULE;
    return mpgc_is_inside(base) && mpgc.uncollectable[granule / 64] >> granule % 64 & 1;
}

// While there is one thread its handlers alone might come between: not into one instruction.
static void change(_Atomic uint64_t *word, uint64_t bit, bool on)
{
    if (mpgc.is_threaded)
        (void)(on ? atomic_fetch_or(word, bit) : atomic_fetch_and(word, ~bit));
    else if (on)
        __asm__ volatile("orq %1, %0" : "+m"(*word) : "r"(bit) : "cc");
    else
        __asm__ volatile("andq %1, %0" : "+m"(*word) : "r"(~bit) : "cc");
}

void mpgc_set_uncollectable(uintptr_t base, bool on)
{
    size_t granule = (base - FIRST) / GRANULE, bytes = mpgc_words_of(base) * WORD;
    if (!mpgc.are_some_reserved) mpgc.are_some_reserved = true;  // first, since a handler may collect at any moment
    atomic_signal_fence(memory_order_seq_cst);
    change(&mpgc.uncollectable[granule / 64], (uint64_t)1 << granule % 64, on);
    if (mpgc.is_threaded)
        (void)__atomic_fetch_add(&GC_non_gc_bytes, on ? bytes : -bytes, __ATOMIC_RELAXED);
    else
        GC_non_gc_bytes += on ? bytes : -bytes;
}
