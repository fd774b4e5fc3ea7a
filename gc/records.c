// The described objects, one behind the other in the order in which they were made, so that who looks at all of them reads memory in a row; and
// of each page that has had any, by the granules at which they begin, where each stands. Trusted, not proved.
//
// A record has the number of a granule and no address, so that none keeps anything. Where an object was freed its record stays, without a granule,
// until the next collection's end, or until there is no more room. What allocates here runs with no other thread stopped (table.c).
// Counted under roots, links, finalizers and kinds.
#include "layer.h"
#include <sys/mman.h>

enum { GRANULES = PAGE / GRANULE };

struct records mpgc_records;
static uint32_t **places;  // of a page, by its granules: numbers of records, from 1 on, and 0 where there is none

static uint32_t *place_at(size_t granule) { return places[granule / GRANULES] + granule % GRANULES; }

static bool is_gone(const struct described *one) { return one->granule == 0; }

static uint32_t *place_of(const struct described *one) { return place_at(one->granule - 1); }

bool mpgc_has_described(size_t page) { return places && places[page]; }

struct described *mpgc_described_at(uintptr_t base)
{
    if (!mpgc_has_described(mpgc_page_of(base)) || base % GRANULE != 0) return NULL;
    uint32_t number = *place_at((base - FIRST) / GRANULE);
    return number != 0 ? &mpgc_records.at[number - 1] : NULL;
}

static void put(size_t index) { *place_of(&mpgc_records.at[index]) = (uint32_t)index + 1; }

// Only those stay that are there still, of which the test says so. Nothing is allocated.
void mpgc_keep_records(bool (*stays)(const struct described *one))
{
    struct records *all = &mpgc_records;
    size_t left = 0;
    for (size_t k = 0; k < all->count; k++) {
        struct described *one = &all->at[k];
        if (is_gone(one)) continue;
        if (stays && !stays(one)) {
            *place_of(one) = 0;
            continue;
        }
        all->at[left] = *one;
        if (left != k) put(left);
        left++;
    }
    if (left < all->count) all->moves++;
    all->count = left;
    all->gone = 0;
}

static bool makes_room(void)
{
    struct records *all = &mpgc_records;
    if (all->count == all->room && all->gone > all->room / 2) mpgc_keep_records(NULL);
    if (all->count < all->room) return true;
    size_t larger = all->room ? 2 * all->room : 64;
    struct described *at = mpgc_memory(all->at, larger * sizeof *at);
    if (!at) return false;
    all->at = at;
    all->room = larger;
    return true;
}

// The page has places for its granules, and keeps them from then on. The pages' own are addresses that take no memory before they are used.
static bool makes_places(size_t page)
{
    int flags = MAP_PRIVATE | MAP_ANONYMOUS | MAP_NORESERVE;
    if (!places) {
        void *made = mmap(NULL, MAX_PAGES * sizeof *places, PROT_READ | PROT_WRITE, flags, -1, 0);
        if (made == MAP_FAILED) return false;
        places = made;
    }
    if (!places[page]) places[page] = mpgc_cleared_memory(GRANULES, sizeof **places);
    return places[page];
}

// No handler of the program comes between: one that collects would read and move what is made.
static bool has_room_on(size_t page)
{
    sigset_t old;
    if (mpgc_records.count < mpgc_records.room && mpgc_has_described(page)) return true;
    mpgc_block_signals(&old);
    bool answer = makes_places(page) && makes_room();
    mpgc_restore_signals(&old);
    return answer;
}

// It stands at its granule. Answers false, and adds nothing, where there is no memory. To add it is one call, since signals aren't blocked: a handler
// that came before may have taken the room.
bool mpgc_add_record(const struct described *one)
{
    struct records *all = &mpgc_records;
    bool fits = false;
    while (!fits && has_room_on((one->granule - 1) / GRANULES)) {
        mpgc_inner_call_begins();
        fits = all->count < all->room;
        if (fits) all->at[all->count] = *one;
        if (fits) put(all->count++);
        mpgc_inner_call_ends();
    }
    return fits;
}

void mpgc_drop_record(struct described *one)
{
    *place_of(one) = 0;
    one->granule = 0;
    mpgc_records.gone++;
}
