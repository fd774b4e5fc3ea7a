// Described objects: the program says which of their words point to objects, by a descriptor, or by a function of its own that marks.
// Trusted, not proved.
//
// To the core they are pointer-free, so it reads none of their words. What it owes it: as roots.c, each word by which the program may still
// reach an object is a root at a cycle's end. It pays where it reads one: each word that points is made a root, and each of these that is a
// described object will be read too. That all are read that are marked is readings.c's. What a descriptor leaves out is weak, as the program
// asked. Which descriptor a request has, and whether it needs one, is said in names/kinds.c.
// Counted under roots, links, finalizers and kinds.
#include "layer.h"
#include <string.h>

static void *procs[MPGC_PROCS];

// ---- The table ----

// To the core a described object is pointer-free: so most words are no base of one, which their pages tell.
static struct described *at_base(uintptr_t base) { return mpgc_kind_at(base) == POINTER_FREE ? mpgc_described_at(base) : NULL; }

void mpgc_forget_described(uintptr_t base)
{
    struct described *one = at_base(base);
    if (one) mpgc_drop_record(one);
}

static uint32_t granule_of(uintptr_t base) { return (uint32_t)((base - FIRST) / GRANULE + 1); }

size_t mpgc_count_described(void) { return mpgc_records.count - mpgc_records.gone; }

int mpgc_described_kind(uintptr_t base)
{
    mpgc_lock();
    const struct described *one = at_base(base);
    int kind = one ? one->kind : -1;
    mpgc_unlock();
    return kind;
}

// Whether all of so many bytes is read that is to be, if the object is described: of elements those are that were asked for.
bool mpgc_is_read_to(uintptr_t base, size_t bytes)
{
    const struct described *one = at_base(base);
    return !one || one->step == one->bytes || bytes <= one->bytes;
}

bool mpgc_describe(void *object, size_t step, size_t bytes, GC_word descriptor, int kind)
{
    mpgc_lock();
    mpgc_know_more((uintptr_t)object);
    bool is_known = mpgc_add_record(&(struct described){ descriptor, granule_of((uintptr_t)object), (uint32_t)step, (uint32_t)bytes, kind, 0, 0 });
    mpgc_unlock();
    return is_known;
}

void mpgc_set_proc(unsigned number, void *marks)
{
    if (number < MPGC_PROCS) procs[number] = marks;
}

// ---- Reading ----

static uint32_t reading;  // each is read once in a reading
static uint32_t to_read;  // the number of the record of the first that will be read, or 0

void mpgc_begin_reading(void)
{
    if (++reading == 0) reading = 1;  // a record that no reading has met has 0
    to_read = 0;
}

bool mpgc_was_read(const struct described *one) { return one->reading == reading; }

void mpgc_will_be_read(struct described *one)
{
    one->reading = reading;
    one->next_to_read = to_read;
    to_read = (uint32_t)(one - mpgc_records.at) + 1;
}

// What isn't the base of a described object may still lead to some: not where a page of small pointer-free objects has none.
static bool leads_on;
static bool may_lead_on(uintptr_t word)
{
    size_t page = mpgc_page_of(word);
    return mpgc.kind[page] == ORDINARY || mpgc.granules[page] == 0 || mpgc_has_described(page);
}

// Whether what was read since this was last asked may lead to described objects that aren't marked before the rest is.
bool mpgc_has_led_on(void)
{
    bool answer = leads_on;
    leads_on = false;
    return answer;
}

// The word is a root. If it is a described object it will be read; one that will be is a root already.
static void push(uintptr_t word)
{
    if (!mpgc_takes_roots() || !mpgc_is_inside(word)) return;
    struct described *one = at_base(word);
    if (one ? mpgc_was_read(one) : mpgc_is_marked_here(word)) return;
    if (one)
        mpgc_will_be_read(one);
    else
        leads_on |= may_lead_on(word);
    mpgc_mark_from(word);
}

SHOWN void *GC_mark_and_push(void *object, void *top, void *limit, void **from);
void *GC_mark_and_push(void *object, void *top, void *limit, void **from)
{
    (void)limit;
    (void)from;
    push((uintptr_t)object);
    return top;
}

// The highest bit says of the first word whether it points.
static void push_by_bits(const GC_word *words, GC_word bits)
{
    for (; bits != 0; bits <<= 1, words++)
        if (bits >> 63) push(*words);
}

static void push_by_bitmap(const GC_word *words, const struct bitmap *map)
{
    for (size_t k = 0; k < map->bits; k++)
        if (map->words[k / 64] >> k % 64 & 1) push(words[k]);
}

// The function is given two places of a stack, which it hands on, and asks whether they are there.
static void push_by_proc(GC_word *words, GC_word descriptor)
{
    static void *stack[256];
    void *(*marks)(GC_word *object, void *top, void *limit, GC_word environment);
    size_t number = descriptor & (MPGC_PROCS - 1);
    GC_word environment = descriptor >> MPGC_PROC_BITS;
    memcpy(&marks, &procs[number], sizeof marks);
    if (number == MPGC_BITMAP_PROC)
        push_by_bitmap(words, (const struct bitmap *)environment);
    else if (marks)
        (void)marks(words, stack, stack + sizeof stack / sizeof *stack - 1, environment);
}

// The descriptor that stands in the object, or in what its first word points to: 0 where it isn't there yet.
static GC_word descriptor_in(const GC_word *words, GC_word descriptor)
{
    GC_word displacement = descriptor & ~(GC_word)MPGC_TAGS;
    if ((GC_signed_word)descriptor >= 0) return *(const GC_word *)((const char *)words + displacement);
    return *words == 0 ? 0 : *(const GC_word *)(*words - displacement - MPGC_OBJECT_BIAS);
}

static void push_by(GC_word *words, GC_word descriptor)
{
    if ((descriptor & MPGC_TAGS) == BY_OBJECT) descriptor = descriptor_in(words, descriptor);
    switch ((enum tag)(descriptor & MPGC_TAGS)) {
    case BY_LENGTH:
        for (size_t k = 0; k < descriptor / WORD; k++) push(words[k]);
        break;
    case BY_BITMAP: push_by_bits(words, descriptor & ~(GC_word)MPGC_TAGS); break;
    case BY_PROC: push_by_proc(words, descriptor >> MPGC_TAG_BITS); break;
    case BY_OBJECT: mpgc_stop("a descriptor that leads to another one that does");
    }
}

static void read_one(const struct described *one)
{
    for (size_t at = 0; at + one->step <= one->bytes; at += one->step) push_by((GC_word *)(mpgc_base_of(one) + at), one->descriptor);
}

// Those that will be are read, with what they lead to without others between: of about so many words. Answers whether
// that was all.
bool mpgc_read_those(uint64_t *left)
{
    while (to_read != 0 && *left > 0) {
        const struct described *one = &mpgc_records.at[to_read - 1];
        uint64_t words = 1 + one->bytes / WORD;
        to_read = one->next_to_read;
        *left -= words < *left ? words : *left;
        if (one->granule != 0) read_one(one);
        mpgc_figures.described += words;
    }
    return to_read == 0;
}

// All that the object points to is a root, but it itself only if it may be: else of a described one every word is read, as with bdwgc, since what
// it pushes isn't told from it.
void mpgc_mark_from_words(uintptr_t base, size_t words, bool with_itself)
{
    const struct described *one = at_base(base);
    if (one && with_itself) read_one(one);
    if (mpgc_kind_at(base) != ORDINARY && (!one || with_itself)) return;
    for (const uint64_t *word = (const uint64_t *)base, *end = word + words; word < end; word++)
        if (with_itself || *word - base >= words * WORD) mpgc_mark_from(*word);
}
