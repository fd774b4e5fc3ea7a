// Requests of a kind: the four of bdwgc, and those that the program makes; typed objects; objects with a type in their first word.
#include "awaited.h"
#include <stdarg.h>
#include <stdlib.h>
#include <string.h>

enum { ATOMIC, NORMAL, UNCOLLECTABLE, ATOMIC_UNCOLLECTABLE, FIRST_KIND, KINDS = 64, TYPED = -2, FIRST_PROC = 8, BITMAP_BITS = 62 };
static struct kind { GC_word descriptor; bool adds_size; } kinds[KINDS];
static unsigned kind_count = FIRST_KIND, proc_count = FIRST_PROC;

// An object of elements, of each of which the descriptor tells. One whose words all point is an ordinary object, and one without any
// isn't read; every other one is pointer-free to the core, and described.
static void *make_described(size_t elements, size_t bytes, GC_word descriptor, int kind)
{
    size_t all;
    if (__builtin_mul_overflow(elements, bytes, &all) || all > PTRDIFF_MAX) return mpgc_out_of_memory(SIZE_MAX);
    bool is_length = (descriptor & MPGC_TAGS) == BY_LENGTH;
    if (is_length && descriptor > 0 && descriptor >= (bytes & ~(WORD - 1))) return GC_malloc(all);
    void *object = GC_malloc_atomic(all);
    if (!GC_is_heap_ptr(object)) return object;
    bool is_read = all > 0 && (!is_length || descriptor > 0);
    return is_read && !mpgc_describe(object, bytes, all, descriptor, kind) ? mpgc_out_of_memory(all) : object;
}

// Bytes of the object that such a request will have, as GC_size tells them: programs count from its end.
static size_t size_for(size_t bytes)
{
    size_t least = bytes + (size_t)GC_get_all_interior_pointers();
    return least <= PAGE / 2 ? GC_get_size_map_at((int)bytes) : (least + PAGE - 1) & ~(PAGE - 1);
}

static void *of_own_kind(size_t bytes, int kind)
{
    if (kind < FIRST_KIND || (unsigned)kind >= kind_count) mpgc_stop("a request of a kind that nobody made");
    return make_described(1, bytes == 0 ? 1 : bytes, kinds[kind].descriptor + (kinds[kind].adds_size ? size_for(bytes) : 0), kind);
}

void *mpgc_malloc_kind(size_t bytes, int kind)
{
    switch (kind) {
    case ATOMIC: return GC_malloc_atomic(bytes);
    case NORMAL: return mpgc_note_disclaimed(GC_malloc(bytes), kind);
    case UNCOLLECTABLE: return GC_malloc_uncollectable(bytes);
    case ATOMIC_UNCOLLECTABLE: return GC_malloc_atomic_uncollectable(bytes);
    default: return mpgc_note_disclaimed(of_own_kind(bytes, kind), kind);
    }
}

#define OF_KIND(name, words, values) \
    SHOWN void *name words; \
    void *name words { return mpgc_malloc_kind values; }
OF_KIND(GC_malloc_kind, (size_t bytes, int kind), (bytes, kind))
OF_KIND(GC_malloc_kind_global, (size_t bytes, int kind), (bytes, kind))
OF_KIND(GC_generic_malloc, (size_t bytes, int kind), (bytes, kind))
OF_KIND(GC_generic_malloc_ignore_off_page, (size_t bytes, int kind), (bytes, kind))
OF_KIND(GC_generic_or_special_malloc, (size_t bytes, int kind), (bytes, kind))
OF_KIND(GC_debug_generic_or_special_malloc, (size_t bytes, int kind, ...), (bytes, kind))
// Of a kind that the program made every word is read.
OF_KIND(GC_generic_malloc_uncollectable, (size_t bytes, int kind),
        (bytes, kind == ATOMIC || kind == ATOMIC_UNCOLLECTABLE ? ATOMIC_UNCOLLECTABLE : UNCOLLECTABLE))

// A list of objects, linked by their first words; of large ones it has one. The bytes are those of a whole cell, the one past the end among them.
// A request may collect, and the words of some kinds aren't read: so they are linked when all are there. And each thread keeps the list that it
// was given last, since beside the collector's thread a collection may end before the program has gone through it.
enum { MANY = 32 };
static _Thread_local void **volatile last_list[MANY] __attribute__((tls_model("initial-exec")));

SHOWN void GC_generic_malloc_many(size_t bytes, int kind, void **list);
void GC_generic_malloc_many(size_t bytes, int kind, void **list)
{
    void **made[MANY] = { NULL };
    int wanted = bytes <= PAGE / 2 ? MANY : 1, count = 0;
    size_t asked = bytes - (GC_get_all_interior_pointers() ? 1 : 0);
    while (count < wanted && (made[count] = mpgc_malloc_kind(asked, kind))) count++;
    for (int k = 0; k < MANY; k++) last_list[k] = made[k];
    *list = NULL;
    for (int k = 0; k < count; k++) {
        *made[k] = *list;
        *list = made[k];
    }
}

SHOWN int GC_get_kind_and_size(const void *base, size_t *bytes);
int GC_get_kind_and_size(const void *base, size_t *bytes)
{
    int kind = mpgc_described_kind((uintptr_t)base);
    if (!GC_base((void *)(uintptr_t)base)) mpgc_stop("GC_get_kind_and_size of what isn't an object");
    if (bytes) *bytes = GC_size(base);
    if (kind >= 0) return kind;
    bool is_ordinary = mpgc_kind_at((uintptr_t)base) == ORDINARY;
    if (mpgc_is_uncollectable((uintptr_t)base)) return is_ordinary ? UNCOLLECTABLE : ATOMIC_UNCOLLECTABLE;
    return is_ordinary ? NORMAL : ATOMIC;
}

// A kind has no free list of its own: the program is given one that stays empty.
SHOWN void **GC_new_free_list(void);
void **GC_new_free_list(void)
{
    static void *none[PAGE / GRANULE];
    return none;
}
SHOWN void **GC_new_free_list_inner(void);
void **GC_new_free_list_inner(void) { return GC_new_free_list(); }

SHOWN unsigned GC_new_kind(void **list, GC_word descriptor, int adds_size, int clears);
unsigned GC_new_kind(void **list, GC_word descriptor, int adds_size, int clears)
{
    (void)list;
    (void)clears;
    GC_alloc_lock();
    if (kind_count == KINDS) mpgc_stop("GC_new_kind: too many kinds");
    kinds[kind_count] = (struct kind){ descriptor, adds_size != 0 };
    unsigned kind = kind_count++;
    GC_alloc_unlock();
    return kind;
}
SHOWN unsigned GC_new_kind_inner(void **list, GC_word descriptor, int adds_size, int clears);
unsigned GC_new_kind_inner(void **list, GC_word descriptor, int adds_size, int clears)
{
    return GC_new_kind(list, descriptor, adds_size, clears);
}
SHOWN unsigned GC_new_proc(void *marks);
unsigned GC_new_proc(void *marks)
{
    GC_alloc_lock();
    if (proc_count == MPGC_PROCS) mpgc_stop("GC_new_proc: too many functions that mark");
    unsigned number = proc_count++;
    mpgc_set_proc(number, marks);
    GC_alloc_unlock();
    return number;
}
SHOWN unsigned GC_new_proc_inner(void *marks);
unsigned GC_new_proc_inner(void *marks) { return GC_new_proc(marks); }

// Typed objects. A bitmap that doesn't fit a word stands elsewhere, for good.
static GC_word of_long_bitmap(const GC_word *bits, size_t many)
{
    size_t bytes = (many + 63) / 64 * WORD;
    struct bitmap *copy = malloc(sizeof *copy + bytes);
    if (!copy) return many * WORD;  // every word is read
    copy->bits = many;
    memcpy(copy->words, bits, bytes);
    return ((GC_word)copy << MPGC_PROC_BITS | MPGC_BITMAP_PROC) << MPGC_TAG_BITS | BY_PROC;
}

static size_t leading_ones(const GC_word *bits, size_t many)
{
    size_t k = 0;
    while (k < many && (bits[k / 64] >> k % 64 & 1)) k++;
    return k;
}

SHOWN GC_word GC_make_descriptor(const GC_word *bits, size_t many);
GC_word GC_make_descriptor(const GC_word *bits, size_t many)
{
    while (many > 0 && !(bits[(many - 1) / 64] >> (many - 1) % 64 & 1)) many--;
    if (leading_ones(bits, many) == many) return many * WORD;
    if (many > BITMAP_BITS) return of_long_bitmap(bits, many);
    GC_word descriptor = BY_BITMAP;
    for (size_t k = 0; k < many; k++) descriptor |= (bits[0] >> k & 1) << (63 - k);
    return descriptor;
}

SHOWN void *GC_malloc_explicitly_typed(size_t bytes, GC_word type);
void *GC_malloc_explicitly_typed(size_t bytes, GC_word type) { return make_described(1, bytes, type, TYPED); }
SHOWN void *GC_malloc_explicitly_typed_ignore_off_page(size_t bytes, GC_word type);
void *GC_malloc_explicitly_typed_ignore_off_page(size_t bytes, GC_word type) { return GC_malloc_explicitly_typed(bytes, type); }
SHOWN void *GC_calloc_explicitly_typed(size_t count, size_t bytes, GC_word type);
void *GC_calloc_explicitly_typed(size_t count, size_t bytes, GC_word type) { return make_described(count, bytes, type, TYPED); }

// Objects whose type stands in their first word: every word is read, whatever it says.
SHOWN int GC_gcj_kind = NORMAL, GC_gcj_debug_kind = NORMAL;
SHOWN void GC_init_gcj_malloc(int number, void *marks);
void GC_init_gcj_malloc(int number, void *marks)
{
    (void)number;
    (void)marks;
    GC_init();
}
SHOWN void *GC_gcj_malloc(size_t bytes, void *type);
void *GC_gcj_malloc(size_t bytes, void *type)
{
    void **object = GC_malloc(bytes < WORD ? WORD : bytes);
    if (object) *object = type;
    return object;
}
SHOWN void *GC_gcj_malloc_ignore_off_page(size_t bytes, void *type);
void *GC_gcj_malloc_ignore_off_page(size_t bytes, void *type) { return GC_gcj_malloc(bytes, type); }
SHOWN void *GC_debug_gcj_malloc(size_t bytes, void *type, ...);
void *GC_debug_gcj_malloc(size_t bytes, void *type, ...) { return GC_gcj_malloc(bytes, type); }
