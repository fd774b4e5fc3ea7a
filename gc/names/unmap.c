// Free pages whose memory is given back to the system. A page goes that was free when so many collections began, one after the other, as
// GC_UNMAP_THRESHOLD says; or each free one, where the program asked for a collection and for that. What is free when a collection begins wasn't
// used since the last one, or the program has freed it: behind a collection's end pages are free that will be used at once. They go a few at
// a time, between requests.
#include "awaited.h"
#include <stdlib.h>
#include <string.h>
#include <sys/mman.h>

enum { USUAL = 6, LOOKED_AT = 4096, BATCH = 256, LEAST = 256 };

static uint8_t *ages;       // of each page: when so many collections began, at most the threshold, it was free
static size_t looked;       // so many pages were looked at
static size_t next;         // from here on they may go
static unsigned threshold = USUAL;
static bool is_forced;

static void age(size_t page)
{
    if (ages[page] < threshold) ages[page]++;
}

// Of those that were ever used a megabyte is free, and a fifth.
static bool are_many(void)
{
    size_t used = mpgc_used_pages();
    return mpgc_ever_used_pages() >= used + used / 4 + LEAST;
}

// They aren't asked of malloc, in the middle of which a handler may collect.
static bool are_ages(void)
{
    if (ages) return true;
    void *at = mmap(NULL, MAX_PAGES, PROT_READ | PROT_WRITE, MAP_PRIVATE | MAP_ANONYMOUS | MAP_NORESERVE, -1, 0);
    if (at != MAP_FAILED) ages = at;
    return ages;
}

// A collection begins. Where few pages are free nothing is looked at, since the next collection may come soon.
void mpgc_age_free_pages(void)
{
    size_t page = 0, first, many = 0;
    if (threshold == 0 || !are_ages()) return;
    bool is_worth_it = are_many();
    while (is_worth_it && (many = mpgc_free_run(page, &first)) > 0) {
        memset(ages + page, 0, first - page);
        for (page = first; page < first + many; page++) age(page);
    }
    if (page < looked) memset(ages + page, 0, looked - page);
    looked = page;
    next = 0;
}

static bool is_due(size_t page)
{
    enum page_kind kind = mpgc_kind_at(FIRST + page * PAGE);
    return ages[page] >= threshold && (kind == ORDINARY || kind == POINTER_FREE);
}

// Answers whether there may be more.
bool mpgc_give_back_some(void)
{
    size_t end = looked - next > LOOKED_AT ? next + LOOKED_AT : looked;
    while (next < end && !is_due(next)) next++;
    size_t first = next;
    while (next < end && next - first < BATCH && is_due(next)) next++;
    mpgc_give_back(first, next);
    return next < looked;
}

// The program has collected: all goes that is free now, or that may go anyway.
void mpgc_unmap(bool is_asked)
{
    GC_alloc_lock();
    if (threshold > 0 && (is_asked || is_forced)) {
        while (mpgc_sweep_some(LOOKED_AT)) continue;
        mpgc_give_back(0, MAX_PAGES);
    }
    while (mpgc_give_back_some()) continue;
    GC_alloc_unlock();
}

void mpgc_read_unmapping(void)
{
    const char *most = getenv("GC_UNMAP_THRESHOLD"), *force = getenv("GC_FORCE_UNMAP_ON_GCOLLECT");
    long number = most ? atol(most) : USUAL;
    if (number > 0 || (most && *most == '0')) threshold = number > UINT8_MAX - 1 ? UINT8_MAX - 1 : (unsigned)number;
    if (force) is_forced = strcmp(force, "0") != 0;
}

void GC_set_force_unmap_on_gcollect(int on) { is_forced = on != 0; }
int GC_get_force_unmap_on_gcollect(void) { return is_forced; }
