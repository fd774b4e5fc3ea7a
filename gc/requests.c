// Requests for memory, and what addresses point into. Trusted, not proved.
//
// What it owes the core, of mpheap.h:
//
//   "Each out parameter points to a number of its own, outside of every heap"   locals, in each call below
//   "any 64-bit word may be put at any 8-aligned         a program is given bases of objects that a request has just made (clause
//   address of an object that is kept at that moment"    IsBaseCall), each once, and keeps them reachable; what it frees it doesn't
//                                                        write again; GC_realloc writes no further than the object goes
//   kinds are as the page's                              mpgc_learn, after each request
//
// The debugging names of what frees stand here too, since no file of names/ may free.
// Counted under the rest.
#include "layer.h"
#include <string.h>

enum { INTO = 0, FREED = 1 };  // registers

int GC_all_interior_pointers = 1;

void GC_set_all_interior_pointers(int on) { GC_all_interior_pointers = on ? 1 : 0; }

int GC_get_all_interior_pointers(void) { return GC_all_interior_pointers; }

// One byte more than asked for, so that a pointer past the end points into its own object.
static size_t extra(void) { return GC_all_interior_pointers ? 1 : 0; }

// The lock is held.
void mpgc_free_in(uint64_t base)
{
    mpgc_note_freed(base);
    mpgc_inner_call_begins();
    mpheap_set(&mpgc.heap, mpgc.slot, FREED, base);
    uint32_t status = mpheap_free(&mpgc.heap, mpgc.slot, FREED);
    mpgc_inner_call_ends();
    if (status != MPHEAP_OK) mpgc_stop("GC_free of what isn't the beginning of an object");
}

static size_t granules_of(size_t words) { return (words + GRANULE / WORD - 1) / (GRANULE / WORD); }

static size_t pages_of(size_t words) { return (words + PAGE / WORD - 1) / (PAGE / WORD); }

// Where an object lies past what the heap may use, the core has cleared it by the time that this is seen. So a large one that has no room
// at all, behind all sweeping, isn't asked for: it would take the machine's memory.
static bool may_fit(size_t pages)
{
    if (pages < BLOCK || mpgc_may_have(mpgc_used_pages() + pages)) return true;
    while (mpgc_sweep_some(MAX_PAGES)) { }
    return mpgc_may_have(mpgc_used_pages() + pages);
}

// An object of its own request, whose pages are known; 0 where there is no room.
static uint64_t ask(size_t words, enum page_kind kind)
{
    uint64_t base;
    uint32_t status;
    size_t pages = pages_of(words);
    if (!may_fit(pages)) return 0;
    CALL(status, kind == ORDINARY ? mpheap_alloc_base(&mpgc.heap, mpgc.slot, INTO, words, &base)
                                  : mpheap_alloc_pointer_free_base(&mpgc.heap, mpgc.slot, INTO, words, &base));
    if (status != MPHEAP_OK) return 0;
    size_t granules = granules_of(words);
    memset(&mpgc.granules[mpgc_page_of(base)], granules > RUN_GRANULES ? 0 : mpgc_size_for(granules), pages);
    bool is_known = mpgc.kind[mpgc_page_of(base)] == kind && words <= PAGE / WORD;
    if (LIKELY(is_known) || mpgc_learn(base, words, kind)) return base;
    mpgc_free_in(base);
    return 0;
}

static size_t words_of(size_t bytes)
{
    if (bytes > MAX_REQUEST_WORDS * WORD) return MAX_REQUEST_WORDS + 1;
    size_t words = (bytes + extra() + WORD - 1) / WORD;
    return words == 0 ? 1 : words;
}

// The next object of a run of this thread, or 0. It is passed by one instruction, when it is in a register already: so no signal handler
// is given the same one, however many a handler takes, and the run keeps it before (mpgc_push_runs), and the register from then on. The
// thread may be stopped anywhere.
__attribute__((always_inline)) static inline uint64_t next_of(struct run *run)
{
    uint64_t number = *(volatile uint64_t *)&run->next, base;
    bool is_passed;
    do {
        if (!LIKELY(number < *(volatile uint64_t *)&run->end)) return 0;
        base = *(volatile uint64_t *)&run->bases[number % RUN_OBJECTS];
        __asm__ volatile("cmpxchg %3, %1" : "+a"(number), "+m"(run->next), "=@ccz"(is_passed) : "r"(number + 1), "r"(base) : "memory");
    } while (!LIKELY(is_passed));
    return base;
}

// An object that isn't of a run, or 0. A large one counts as the pages that it takes.
static uint64_t take_alone(size_t words, enum page_kind kind)
{
    size_t granules = granules_of(words), pages = pages_of(words);
    uint64_t base = ask(words, kind);
    if (base == 0) return 0;
    mpgc_figures.since += granules > RUN_GRANULES ? pages * (PAGE / WORD) : words;
    mpgc_figures.taken += granules > RUN_GRANULES ? pages * (PAGE / WORD) : mpgc_size_for(granules) * (GRANULE / WORD);
    return base;
}

// One object, of a run where it is small, and where the thread isn't about to change one; 0 where there is no room.
static uint64_t take(size_t words, enum page_kind kind)
{
    size_t granules = granules_of(words);
    if (granules > RUN_GRANULES || mpgc_self->takes_back) return take_alone(words, kind);
    struct run *run = mpgc_run_of(mpgc_self, granules, kind);
    uint64_t base = next_of(run);
    return base == 0 && mpgc_fill_run(run, granules, kind) ? next_of(run) : base;
}

// After a full collection, and with all of its pages swept: the core takes pages in a row where they are free, and those that are still to
// be swept may be the only ones that the heap may use.
static uint64_t take_again(size_t words, enum page_kind kind)
{
    if (mpgc_is_off() || words > MAX_REQUEST_WORDS) return 0;
    mpgc_collect();
    while (mpgc_sweep_some(MAX_PAGES)) { }
    return take(words, kind);
}

// Any request, with what there is to do before it.
__attribute__((noinline)) static void *allocate_anew(size_t bytes, enum page_kind kind)
{
    mpgc_enter();
    size_t words = words_of(bytes);
    mpgc_lock();
    if (mpgc_figures.since + words >= mpgc_figures.next) (void)mpgc_look(false);
    uint64_t base = take(words, kind);
    if (base == 0) base = take_again(words, kind);
    mpgc_unlock();
    mpgc_tell_ready();
    return LIKELY(base != 0) ? (void *)base : mpgc_out_of_memory(bytes);
}

// Four of the words just below the caller's frame, which a function that isn't as short as a request writes over. A program that copies structs of
// which it has filled a part puts what it finds there into objects, and what these words named before would be kept by them.
__attribute__((always_inline)) static inline void clear_below(void)
{
    typedef uint64_t pair __attribute__((vector_size(16)));
    volatile pair below[2];
    below[0] = below[1] = (pair){ 0, 0 };
}

// Part of the two requests below, each with its kind.
__attribute__((always_inline)) static inline void *allocate(size_t bytes, enum page_kind kind)
{
    struct thread *self = mpgc_self;
    clear_below();
    if (!LIKELY(self && bytes - 1 < RUN_GRANULES * GRANULE - 1)) return allocate_anew(bytes, kind);
    uint64_t base = next_of(mpgc_run_of(self, (bytes + extra() + GRANULE - 1) / GRANULE, kind));
    return LIKELY(base != 0) ? (void *)base : allocate_anew(bytes, kind);
}

// Each begins a line of the cache, which a request takes a third longer without.
__attribute__((aligned(64))) void *GC_malloc(size_t bytes) { return allocate(bytes, ORDINARY); }

__attribute__((aligned(64))) void *GC_malloc_atomic(size_t bytes) { return allocate(bytes, POINTER_FREE); }

// The kept object that the address points into.
bool mpgc_find(uintptr_t address, uintptr_t *base, size_t *words)
{
    uint64_t found = 0, length = 0;
    uint32_t status;
    mpgc_enter();
    CALL(status, mpheap_kept_at(&mpgc.heap, address, &found, &length));
    *base = found;
    *words = length;
    return status == MPHEAP_OK;
}

// The words of an object, by its base. The core needn't be asked of a small one, nor the lock be had, since the page tells: it has objects of one
// size, and no others while this one is kept.
UNSEEN size_t mpgc_words_of(uintptr_t base)
{
    uintptr_t found;
    size_t words, granules = mpgc_is_inside(base) ? mpgc.granules[mpgc_page_of(base)] : 0;
    if (granules != 0) return granules * (GRANULE / WORD);
    return mpgc_find(base, &found, &words) ? words : 0;
}

// What the program's GC_oom_fn answered lies outside of the heap, and is no object of it.
static void *keep(void *object)
{
    if (!mpgc_is_inside((uintptr_t)object)) return object;
    mpgc_set_uncollectable((uintptr_t)object, true);
    return object;
}

void *GC_malloc_uncollectable(size_t bytes) { return keep(GC_malloc(bytes)); }

void *GC_malloc_atomic_uncollectable(size_t bytes) { return keep(GC_malloc_atomic(bytes)); }

// It is one call: a handler that collected meanwhile would move what is known of other objects.
static void forget(uintptr_t base)
{
    mpgc_inner_call_begins();
    mpgc_forget_finalizer(base);
    mpgc_forget_described(base);
    mpgc_inner_call_ends();
}

// Freed last: from then on a signal's handler may be given what lies there, and what is known of it is of the new object. Where the page has
// no object of which more is known, nothing is to be forgotten.
__attribute__((noinline)) static void free_by_core(uint64_t base)
{
    mpgc_enter();
    mpgc_lock();
    if (mpgc_is_in_run(base)) mpgc_stop("GC_free of what was freed before");
    size_t words = mpgc_words_of(base);
    if (mpgc_is_inside(base) && mpgc.has_more[mpgc_page_of(base)]) forget(base);
    mpgc_figures.freed += words;
    if (mpgc_is_uncollectable(base)) mpgc_set_uncollectable(base, false);
    mpgc_free_in(base);
    mpgc_unlock();
}

void GC_free(void *object)
{
    if (object && !mpgc_take_back((uintptr_t)object)) free_by_core((uintptr_t)object);
}

enum { NO_KIND = -1 };

// The kind of the program's own, if it has one. This too is one call.
UNSEEN static int kind_of(uintptr_t base)
{
    if (!mpgc.has_more[mpgc_page_of(base)]) return NO_KIND;
    mpgc_call_begins();
    int kind = mpgc_described_kind(base);
    if (kind == NO_KIND) kind = mpgc_disclaimed_kind(base);
    mpgc_call_ends();
    return kind;
}

// Another object of the old one's kind. One of a kind that the program made is asked for where such kinds are known; and to read every word of
// one that was typed loses nothing.
static void *alike(const void *old, size_t bytes)
{
    int kind = kind_of((uintptr_t)old);
    uintptr_t base;
    size_t words;
    if (kind < 0) return kind == NO_KIND && mpgc_kind_at((uintptr_t)old) != ORDINARY ? GC_malloc_atomic(bytes) : GC_malloc(bytes);
    void *object = mpgc_malloc_kind(bytes, kind);
    bool has_room = mpgc_find((uintptr_t)object, &base, &words) && base == (uintptr_t)object && words * WORD >= bytes;
    if (mpgc_is_inside((uintptr_t)object) && !has_room) mpgc_stop("an object of a kind is too short");
    return object;
}

// What stood in the object, in a larger or much smaller one of the same kind, which stays if that one did.
static void *move(void *old, size_t old_bytes, size_t bytes)
{
    void *object = alike(old, bytes);
    if (mpgc_is_uncollectable((uintptr_t)old)) object = keep(object);
    if (!object) return NULL;
    memcpy(object, old, bytes < old_bytes ? bytes : old_bytes);
    GC_free(old);
    return object;
}

static bool is_read(uintptr_t base) { return mpgc_kind_at(base) == ORDINARY || kind_of(base) != NO_KIND; }

// Elements that are added to typed ones would be read by nobody where they are.
UNSEEN static bool may_stay(uintptr_t base, size_t bytes)
{
    if (!mpgc.has_more[mpgc_page_of(base)]) return true;
    mpgc_call_begins();
    bool answer = mpgc_is_read_to(base, bytes);
    mpgc_call_ends();
    return answer;
}

// All bytes past those asked for are 0 in an object that is read, so that what grows in place is 0.
void *GC_realloc(void *old, size_t bytes)
{
    if (!old) return GC_malloc(bytes);
    if (bytes == 0) {
        GC_free(old);
        return NULL;
    }
    uintptr_t base;
    size_t words;
    if (!mpgc_find((uintptr_t)old, &base, &words) || base != (uintptr_t)old)
        mpgc_stop("GC_realloc of what isn't the beginning of an object");
    size_t room = words * WORD;
    if (bytes > room - extra() || bytes < room / 2 || !may_stay(base, bytes)) return move(old, room, bytes);
    if (is_read(base)) memset((char *)old + bytes, 0, room - bytes);
    return old;
}

void GC_debug_free(void *base) { GC_free(base); }

void *GC_debug_realloc(void *old, size_t bytes, ...) { return GC_realloc(old, bytes); }

void *GC_debug_realloc_replacement(void *old, size_t bytes) { return GC_realloc(old, bytes); }
