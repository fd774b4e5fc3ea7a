/* A plain core in C with the calls of mpheap.h that libmpgc makes. It is as simple as can be, and checks what a caller owes where words are
 * written by pointers: a clean page is one whose words were read, or needn't be, so the words of ordinary objects on it are kept in mind
 * when it becomes clean, and compared with what stands there before and behind each step beside writers, some pages at a time, and all at a
 * cycle's end. A page that is read again beside writers is compared when it was read. What differs was written untold: then it aborts. Under
 * CORE_ALLOWS=nameless it doesn't where the new word names no object.
 * Where several threads mark, checking_shares.h looks at what is owed there. */
#define _GNU_SOURCE
#include <stdatomic.h>
#include <stdio.h>
#include <stdlib.h>
#include <string.h>
#include <sys/mman.h>
#include <unistd.h>
#include "mpheap.h"

enum { PAGE = MPHEAP_PAGE_BYTES, WORDS = MPHEAP_PAGE_WORDS, GRANULE = 16, GRANULES = PAGE / GRANULE, LOOKS = 24 };
#define FIRST ((uint64_t)MPHEAP_FIRST_ADDRESS)

/* What lies on a page: nothing, cells of so many words, an object's beginning with so many pages, or its later pages. */
enum use { FREE, CELLS, HEAD, REST };
struct page { uint64_t count, first; uint8_t use, is_pointer_free, is_dirty, is_kept_in_mind; };

static const uint64_t classes[] = { 2, 4, 6, 8, 12, 16, 24, 32, 48, 64, 96, 128, 256 };
enum { CLASSES = sizeof classes / sizeof *classes };

static struct { uint64_t registers[MPHEAP_REGISTERS], stack[MPHEAP_STACK_WORDS]; int depth; bool is_there; } mutators[MPHEAP_SLOTS];
static struct entry { uint64_t base, next; } *entries;
static struct page *pages;
static uint8_t *is_object, *is_marked; /* at the granule where an object begins */
static uint64_t *in_mind;
static uint64_t all, used, depth, most_words, ended, seed = 88172645463325252u, from_page[2][CLASSES];
static bool is_marking;

static void wrong(const char *what, uint64_t address)
{
    char text[200];
    int length = snprintf(text, sizeof text, "checking core: %s, at %#lx\n", what, (unsigned long)address);
    if (length > 0 && write(2, text, (size_t)length) == length) abort();
    abort();
}

/* From mpheap_share to mpheap_gather the heap is lent. */
static void is_open(const mpheap *heap)
{
    if (!heap->core) wrong("a call on a heap that is lent", 0);
}

static void *room_for(size_t bytes)
{
    void *at = mmap(NULL, bytes, PROT_READ | PROT_WRITE, MAP_PRIVATE | MAP_ANONYMOUS | MAP_NORESERVE, -1, 0);
    if (at == MAP_FAILED) wrong("no memory", bytes);
    return at;
}

static uint64_t page_of(uint64_t address) { return (address - FIRST) / PAGE; }
static uint64_t granule_of(uint64_t address) { return (address - FIRST) / GRANULE; }
static uint64_t start_of(uint64_t page) { return FIRST + page * PAGE; }
static uint64_t word_at(uint64_t address) { return *(volatile uint64_t *)(uintptr_t)address; }

uint32_t mpheap_open_mapped_with(uint32_t count, uint64_t words, mpheap *heap)
{
    int flags = MAP_PRIVATE | MAP_ANONYMOUS | MAP_NORESERVE | MAP_FIXED_NOREPLACE;
    heap->core = mmap((void *)(uintptr_t)FIRST, (size_t)count * PAGE, PROT_READ | PROT_WRITE, flags, -1, 0);
    if (heap->core != (void *)(uintptr_t)FIRST) return MPHEAP_RANGE_TAKEN;
    all = count;
    most_words = words;
    pages = room_for(all * sizeof *pages);
    is_object = room_for(all * GRANULES);
    is_marked = room_for(all * GRANULES);
    in_mind = room_for(all * PAGE);
    entries = room_for(all * GRANULES * sizeof *entries);
    return MPHEAP_OK;
}

/* ---- Mutators ---- */

uint32_t mpheap_attach(mpheap *heap, uint8_t *slot)
{
    is_open(heap);
    for (*slot = 0; *slot < MPHEAP_SLOTS && mutators[*slot].is_there; ++*slot) continue;
    if (*slot == MPHEAP_SLOTS) return MPHEAP_NO_SLOT;
    memset(&mutators[*slot], 0, sizeof mutators[*slot]);
    mutators[*slot].is_there = true;
    return MPHEAP_OK;
}

uint32_t mpheap_detach(mpheap *heap, uint8_t slot)
{
    is_open(heap);
    mutators[slot].is_there = false;
    return MPHEAP_OK;
}

uint32_t mpheap_set(mpheap *heap, uint8_t slot, uint8_t into, uint64_t number)
{
    is_open(heap);
    mutators[slot].registers[into] = number;
    return MPHEAP_OK;
}

uint32_t mpheap_push(mpheap *heap, uint8_t slot, uint8_t from)
{
    is_open(heap);
    if (mutators[slot].depth == MPHEAP_STACK_WORDS) return MPHEAP_STACK_FULL;
    mutators[slot].stack[mutators[slot].depth++] = mutators[slot].registers[from];
    return MPHEAP_OK;
}

/* ---- Objects ---- */

static bool find(uint64_t word, uint64_t *base, uint64_t *words)
{
    uint64_t page = page_of(word);
    if (word < FIRST || page >= all || pages[page].use == FREE) return false;
    if (pages[page].use == REST) page = pages[page].first;
    bool is_cell = pages[page].use == CELLS;
    *words = is_cell ? pages[page].count : pages[page].count * WORDS;
    *base = start_of(page) + (is_cell ? (word - start_of(page)) / (*words * 8) * (*words * 8) : 0);
    return *base + *words * 8 <= start_of(page) + (is_cell ? PAGE : *words * 8) && is_object[granule_of(*base)];
}

uint32_t mpheap_kept_at(mpheap *heap, uint64_t word, uint64_t *base, uint64_t *words)
{
    is_open(heap);
    return find(word, base, words) ? MPHEAP_OK : MPHEAP_NO_OBJECT;
}

/* An object of zero words that is marked while a cycle marks. */
static uint64_t make(uint64_t base, uint64_t bytes)
{
    is_object[granule_of(base)] = 1;
    is_marked[granule_of(base)] = is_marking;
    memset((void *)(uintptr_t)base, 0, bytes);
    return base;
}

static uint64_t make_cell(unsigned class, uint8_t is_pointer_free)
{
    uint64_t words = classes[class], *from = &from_page[is_pointer_free][class];
    for (; *from < all; ++*from) {
        struct page *page = &pages[*from];
        if (page->use == FREE) *page = (struct page){ .use = CELLS, .count = words, .is_pointer_free = is_pointer_free, .is_dirty = page->is_dirty };
        if (page->use != CELLS || page->count != words || page->is_pointer_free != is_pointer_free) continue;
        if (*from >= used) used = *from + 1;
        for (uint64_t base = start_of(*from); base + words * 8 <= start_of(*from + 1); base += words * 8)
            if (!is_object[granule_of(base)]) return make(base, words * 8);
    }
    return 0;
}

static uint64_t make_large(uint64_t count, uint8_t is_pointer_free)
{
    uint64_t run = 0, last = 0;
    for (; last < all && run < count; last++) run = pages[last].use == FREE ? run + 1 : 0;
    if (run < count) return 0;
    for (uint64_t page = last - count; page < last; page++)
        pages[page] = (struct page){ .use = page == last - count ? HEAD : REST, .count = count, .first = last - count,
                                     .is_pointer_free = is_pointer_free, .is_dirty = pages[page].is_dirty };
    if (last > used) used = last;
    return make(start_of(last - count), count * PAGE);
}

static uint32_t ask(uint8_t slot, uint8_t into, uint64_t words, uint64_t *base, uint8_t is_pointer_free)
{
    unsigned class = 0;
    if (words == 0 || words > most_words) return MPHEAP_BAD_SIZE;
    while (class < CLASSES && classes[class] < words) class++;
    uint64_t made = class < CLASSES ? make_cell(class, is_pointer_free) : make_large((words + WORDS - 1) / WORDS, is_pointer_free);
    if (made == 0) return MPHEAP_FULL;
    *base = mutators[slot].registers[into] = made;
    return MPHEAP_OK;
}

static uint32_t ask_many(uint8_t slot, uint8_t into, uint64_t words, uint64_t *bases, size_t most, uint64_t *count, uint8_t is_pointer_free)
{
    uint32_t status = MPHEAP_OK;
    for (*count = 0; *count < most && status == MPHEAP_OK; *count += status == MPHEAP_OK)
        status = ask(slot, into, words, &bases[*count], is_pointer_free);
    return status;
}

uint32_t mpheap_alloc_base(mpheap *heap, uint8_t slot, uint8_t into, uint64_t words, uint64_t *base)
{
    is_open(heap);
    return ask(slot, into, words, base, 0);
}

uint32_t mpheap_alloc_pointer_free_base(mpheap *heap, uint8_t slot, uint8_t into, uint64_t words, uint64_t *base)
{
    is_open(heap);
    return ask(slot, into, words, base, 1);
}

uint32_t mpheap_alloc_many(mpheap *heap, uint8_t slot, uint8_t into, uint64_t words, uint64_t *bases, size_t most, uint64_t *count)
{
    is_open(heap);
    return ask_many(slot, into, words, bases, most, count, 0);
}

uint32_t mpheap_alloc_pointer_free_many(mpheap *heap, uint8_t slot, uint8_t into, uint64_t words, uint64_t *bases, size_t most, uint64_t *count)
{
    is_open(heap);
    return ask_many(slot, into, words, bases, most, count, 1);
}

/* The search for a cell begins no later than here. */
static void has_room_on(uint64_t page)
{
    for (uint64_t *from = from_page[0]; from < from_page[0] + 2 * CLASSES; from++)
        if (*from > page) *from = page;
}

static void forget(uint64_t base)
{
    struct page *page = &pages[page_of(base)];
    uint64_t count = page->use == HEAD ? page->count : 0;
    is_object[granule_of(base)] = is_marked[granule_of(base)] = 0;
    for (uint64_t k = 0; k < count; k++) page[k].use = FREE;
    has_room_on(page_of(base));
}

uint32_t mpheap_free(mpheap *heap, uint8_t slot, uint8_t from)
{
    uint64_t base, words, word = mutators[slot].registers[from];
    is_open(heap);
    if (!find(word, &base, &words)) return MPHEAP_NO_OBJECT;
    if (base != word) return MPHEAP_NOT_BASE;
    forget(base);
    *(uint64_t *)(uintptr_t)base = UINT64_MAX; /* as a list of free cells has its links there */
    return MPHEAP_OK;
}

/* ---- What is owed ---- */

static bool holds_ordinary(uint64_t page) { return pages[page].use != FREE && !pages[page].is_pointer_free; }

static void becomes_clean(uint64_t page)
{
    pages[page].is_dirty = 0;
    pages[page].is_kept_in_mind = holds_ordinary(page);
    if (holds_ordinary(page)) memcpy(in_mind + page * WORDS, (void *)(uintptr_t)start_of(page), PAGE);
}

static bool is_allowed(uint64_t word)
{
    uint64_t base, words;
    const char *allows = getenv("CORE_ALLOWS");
    return allows && strcmp(allows, "nameless") == 0 && !find(word, &base, &words);
}

static void check(uint64_t page, const char *what)
{
    uint64_t base, words;
    if (!holds_ordinary(page) || pages[page].is_dirty || !pages[page].is_kept_in_mind) return;
    for (uint64_t k = 0, at = start_of(page); k < WORDS; k++, at += 8)
        if (in_mind[page * WORDS + k] != word_at(at) && find(at, &base, &words) && !is_allowed(word_at(at))) wrong(what, at);
}

static void check_some(const char *what)
{
    for (int k = 0; k < LOOKS && used > 0; k++) {
        seed ^= seed << 13;
        seed ^= seed >> 7;
        seed ^= seed << 17;
        check((seed >> 9) % used, what);
    }
}

/* ---- The collector ---- */

static void mark_word(uint64_t word)
{
    uint64_t base, words;
    if (!find(word, &base, &words) || is_marked[granule_of(base)]) return;
    is_marked[granule_of(base)] = 1;
    if (!pages[page_of(base)].is_pointer_free) entries[depth++] = (struct entry){ base, 0 };
}

static uint64_t mark(uint64_t most)
{
    uint64_t read = 0, base, words;
    while (read < most && depth > 0) {
        struct entry *last = &entries[depth - 1];
        bool goes_on = find(last->base, &base, &words) && base == last->base && last->next < words && !pages[page_of(base)].is_pointer_free;
        if (goes_on) {
            read++;
            mark_word(word_at(base + 8 * last->next++));
        } else {
            depth--;
        }
    }
    return read;
}

static uint64_t retrace_page(uint64_t page)
{
    uint64_t base, words;
    if (page >= used || !pages[page].is_dirty) return 0;
    becomes_clean(page);
    for (uint64_t at = start_of(page); holds_ordinary(page) && at < start_of(page + 1); at += 8)
        if (find(at, &base, &words) && is_marked[granule_of(base)]) mark_word(word_at(at));
    check(page, "a page was written while it was read again");
    return 1;
}

static uint64_t retrace(void)
{
    uint64_t page = 0;
    while (page < used && !pages[page].is_dirty) page++;
    return retrace_page(page);
}

uint32_t mpheap_begin(mpheap *heap)
{
    is_open(heap);
    if (is_marking) return MPHEAP_WRONG_PHASE;
    is_marking = true;
    depth = 0;
    memset(is_marked, 0, used * GRANULES);
    for (uint64_t page = 0; page < used; page++) becomes_clean(page);
    return MPHEAP_OK;
}

uint32_t mpheap_roots(mpheap *heap)
{
    is_open(heap);
    if (!is_marking) return MPHEAP_WRONG_PHASE;
    for (int slot = 0; slot < MPHEAP_SLOTS; slot++) {
        if (!mutators[slot].is_there) continue;
        for (int k = 0; k < MPHEAP_REGISTERS; k++) mark_word(mutators[slot].registers[k]);
        for (int k = 0; k < mutators[slot].depth; k++) mark_word(mutators[slot].stack[k]);
    }
    return MPHEAP_OK;
}

uint32_t mpheap_mark(mpheap *heap, uint64_t most, uint64_t *count)
{
    is_open(heap);
    if (!is_marking) return MPHEAP_WRONG_PHASE;
    check_some("a clean page was written before a step");
    *count = mark(most);
    return MPHEAP_OK;
}

uint32_t mpheap_mark_beside(mpheap *heap, uint64_t most, const mpheap_asked *asked, uint64_t *count)
{
    (void)asked;
    uint32_t status = mpheap_mark(heap, most, count);
    check_some("a clean page was written beside a step");
    return status;
}

uint32_t mpheap_retrace(mpheap *heap, uint64_t *count)
{
    is_open(heap);
    if (!is_marking) return MPHEAP_WRONG_PHASE;
    *count = retrace();
    return MPHEAP_OK;
}

uint32_t mpheap_retrace_beside(mpheap *heap, const mpheap_asked *asked, uint64_t *count)
{
    (void)asked;
    return mpheap_retrace(heap, count);
}

uint32_t mpheap_retrace_page_beside(mpheap *heap, uint32_t page, const mpheap_asked *asked, uint64_t *count)
{
    is_open(heap);
    (void)asked;
    if (!is_marking) return MPHEAP_WRONG_PHASE;
    *count = retrace_page(page);
    return MPHEAP_OK;
}

/* What isn't marked goes from the page. */
static uint64_t take_unmarked(uint64_t page)
{
    uint64_t taken = 0, left = 0;
    for (uint64_t k = page * GRANULES; k < (page + 1) * GRANULES; k++) {
        if (is_object[k] && !is_marked[k]) {
            forget(FIRST + k * GRANULE);
            taken++;
        }
        left += is_object[k];
    }
    if (pages[page].use == CELLS && left == 0) pages[page].use = FREE;
    if (pages[page].use == FREE) has_room_on(page);
    return taken;
}

uint32_t mpheap_finish(mpheap *heap, uint64_t *count)
{
    is_open(heap);
    if (mpheap_roots(heap) != MPHEAP_OK) return MPHEAP_WRONG_PHASE;
    for (uint64_t page = 0; page < used; page++) check(page, "a clean page was written before a cycle's end");
    do mark(UINT64_MAX);
    while (retrace() == 1);
    *count = 0;
    for (uint64_t page = 0; page < used; page++) *count += take_unmarked(page);
    is_marking = false;
    ended++;
    return MPHEAP_OK;
}

uint32_t mpheap_sweep(mpheap *heap, uint64_t *count)
{
    is_open(heap);
    *count = 0;
    return MPHEAP_OK;
}

uint64_t mpheap_gc_no(mpheap *heap)
{
    is_open(heap);
    return ended;
}

bool mpheap_is_marked(mpheap *heap, uint64_t base)
{
    uint64_t found, words;
    is_open(heap);
    return find(base, &found, &words) && found == base && is_marked[granule_of(base)];
}

uint32_t mpheap_free_pages(mpheap *heap)
{
    uint64_t count = all - used;
    is_open(heap);
    for (uint64_t page = 0; page < used; page++) count += pages[page].use == FREE;
    return (uint32_t)count;
}

uint32_t mpheap_used_pages(mpheap *heap)
{
    is_open(heap);
    return (uint32_t)used;
}

bool mpheap_free_run(mpheap *heap, uint32_t from, uint32_t *first, uint32_t *count)
{
    uint64_t page = from, end;
    is_open(heap);
    while (page < all && pages[page].use != FREE) page++;
    for (end = page; end < all && pages[end].use == FREE; end++) continue;
    *first = (uint32_t)page;
    *count = (uint32_t)(end - page);
    return page < all;
}

uint32_t mpheap_dirty_pages(mpheap *heap)
{
    uint32_t count = 0;
    is_open(heap);
    for (uint64_t page = 0; page < used; page++) count += pages[page].is_dirty;
    return count;
}

uint32_t mpheap_pending_pages(mpheap *heap)
{
    is_open(heap);
    return 0;
}

void mpheap_written(mpheap *heap, uint64_t address)
{
    is_open(heap);
    if (address >= FIRST && page_of(address) < all) pages[page_of(address)].is_dirty = 1;
}

#include "checking_shares.h"
