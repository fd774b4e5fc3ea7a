// A heap that is printed for people: GC_dump and its kin, on standard output as bdwgc has it. It changes nothing.
#include "../front.h"
#include <stdio.h>

struct sum { size_t objects, words; };

// The objects that begin on the page are added.
static struct sum add_page(size_t page, struct sum *sum)
{
    struct sum here = { 0, 0 };
    uintptr_t at = FIRST + page * PAGE, end = at + PAGE;
    while (at < end) {
        uintptr_t base;
        size_t words;
        bool is_found = mpgc_find(at, &base, &words);
        if (is_found && base == at) here = (struct sum){ here.objects + 1, here.words + words };
        at = is_found ? base + words * WORD : at + GRANULE;
    }
    sum->objects += here.objects;
    sum->words += here.words;
    return here;
}

// One letter a page: what it was last given to, in capitals if objects fill more than half of it.
static char letter(size_t page, struct sum here)
{
    uintptr_t base, start = FIRST + page * PAGE;
    size_t words;
    if (mpgc_kind_at(start) == FRESH || mpgc_kind_at(start) == GIVEN_BACK) return '.';
    bool is_inner = here.objects == 0 && mpgc_find(start, &base, &words);
    if (here.objects == 0 && !is_inner) return '-';
    bool is_full = is_inner || here.words > PAGE / WORD / 2;
    if (mpgc_kind_at(start) == POINTER_FREE) return is_full ? 'A' : 'a';
    return is_full ? 'O' : 'o';
}

void GC_dump_regions(void)
{
    struct sum sums[4] = { { 0, 0 }, { 0, 0 }, { 0, 0 }, { 0, 0 } };
    GC_init();
    size_t pages = mpgc_pages();
    printf("Pages (o ordinary objects, a pointer-free ones, capitals where more than half full, - empty, . never used or given back):\n");
    for (size_t page = 0; page < pages; page++) {
        struct sum here = add_page(page, &sums[mpgc_kind_at(FIRST + page * PAGE)]);
        putchar(letter(page, here));
        if (page % 64 == 63) putchar('\n');
    }
    if (pages % 64 != 0) putchar('\n');
    printf("Ordinary: %zu objects, %zu bytes; pointer-free: %zu objects, %zu bytes\n", sums[ORDINARY].objects,
           sums[ORDINARY].words * WORD, sums[POINTER_FREE].objects, sums[POINTER_FREE].words * WORD);
}

void GC_dump_named(const char *name)
{
    if (name)
        printf("***GC Dump %s\n", name);
    else
        printf("***GC Dump collection #%lu\n", (unsigned long)GC_gc_no);
    printf("Heap: %zu bytes, at most %zu, of them %zu in free pages; %zu asked for since the last collection, %zu in all\n",
           GC_get_heap_size(), mpgc_figures.limit * PAGE, GC_get_free_bytes(), GC_get_bytes_since_gc(), GC_get_total_bytes());
    printf("Collections: %lu full, %lu in small steps%s\n", mpgc_figures.full, mpgc_figures.cycles,
           mpgc_is_marking() ? ", one under way" : "");
    GC_dump_regions();
    fflush(stdout);
}

void GC_dump(void) { GC_dump_named(NULL); }
