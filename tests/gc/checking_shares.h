/* The part of the checking core by which several threads mark (mpheap_share and its kin). They do: marks are claimed by atomic exchanges.
 * Checked is what is owed there: handles that are opened once, and open where shares come or go; one call at a time but for mpheap_help, that
 * on each handle by one thread; a heap that is lent once, and put together again in its own closed handle; memory that was lent and a large
 * stack where memory is asked for. CORE_REFUSES=N refuses the Nth request for memory of an open, share or hire, and each Nth behind it. */
#include "../../c/lent.h"

enum { OWN_ENTRIES = 512, STACK_BYTES = 600 * 1024 };

/* What one helper has: what was dealt to it, the bases that it still has to read, and the pages of those that it left. */
struct share {
    struct entry *dealt;
    uint64_t *to_read, *stack;
    uint8_t *dirty;
    uint64_t dealt_count, to_read_count, depth, left;
    atomic_bool is_busy, is_done;
};
struct crew { void *core; uint64_t helpers; struct share shares[MPHEAP_MAX_HELPERS]; };
/* What is behind an open handle: so many shares of a crew, from the first one on, or no crew. And memory that a hire asked for. */
struct place { struct crew *crew; uint64_t first, count; void *hired; };

static atomic_bool is_called;
static atomic_uint helping;

static void call_begins(void)
{
    if (atomic_exchange(&is_called, true)) wrong("two calls at a time", 0);
}

static uint32_t call_ends(uint32_t status)
{
    is_called = false;
    return status;
}

static void *ask_for(size_t bytes)
{
    static unsigned long requests;
    const char *refuses = getenv("CORE_REFUSES");
    volatile char stack[STACK_BYTES];
    for (size_t k = 0; k < STACK_BYTES; k += PAGE) stack[k] = 1;
    (void)stack[0];
    if (!mpheap_is_lent()) wrong("memory is asked for that may be malloc's", bytes);
    if (refuses && ++requests % strtoul(refuses, NULL, 10) == 0) return NULL;
    void *at = mpheap_ask_lent(bytes);
    if (at) memset(at, 0, bytes);
    return at;
}

static void give_back(void *at)
{
    if (!mpheap_is_lent()) wrong("memory that was lent is given back to malloc", 0);
    if (at) mpheap_give_back_lent(at);
}

static struct place *place_of(const mpheap_shares *handle)
{
    if (!handle->at) wrong("a closed handle of shares is used", 0);
    return handle->at;
}

uint32_t mpheap_shares_open(mpheap_shares *some)
{
    call_begins();
    if (some->at) wrong("a handle of shares is opened twice", 0);
    some->at = ask_for(sizeof(struct place));
    return call_ends(some->at ? MPHEAP_OK : MPHEAP_NO_MEMORY);
}

/* ---- Dealing ---- */

static void drop_share(struct share *share)
{
    give_back(share->dealt);
    give_back(share->to_read);
    give_back(share->stack);
    give_back(share->dirty);
}

static bool get_ready(struct share *share, uint64_t number, uint64_t helpers)
{
    share->dealt = ask_for((depth / helpers + 1) * sizeof *share->dealt);
    share->to_read = ask_for((used / helpers + 1) * sizeof *share->to_read);
    share->stack = ask_for(OWN_ENTRIES * sizeof *share->stack);
    share->dirty = ask_for(used + 1);
    if (!share->dealt || !share->to_read || !share->stack || !share->dirty) return false;
    for (uint64_t k = number; k < depth; k += helpers) share->dealt[share->dealt_count++] = entries[k];
    return true;
}

static void deal_pages(struct crew *crew)
{
    for (uint64_t page = 0, next = 0; page < used; page++) {
        if (!pages[page].is_dirty) continue;
        struct share *share = &crew->shares[next++ % crew->helpers];
        share->to_read[share->to_read_count++] = page;
        becomes_clean(page);
    }
}

static void drop_crew(struct crew *crew)
{
    for (uint64_t k = 0; k < crew->helpers; k++) drop_share(&crew->shares[k]);
    give_back(crew);
}

static struct crew *new_crew(uint64_t helpers)
{
    bool is_ready = true;
    struct crew *crew = ask_for(sizeof *crew);
    if (!crew) return NULL;
    crew->helpers = helpers;
    for (uint64_t k = 0; k < helpers && is_ready; k++) is_ready = get_ready(&crew->shares[k], k, helpers);
    if (is_ready) return crew;
    drop_crew(crew);
    return NULL;
}

uint32_t mpheap_share(mpheap *heap, uint8_t helpers, mpheap_shares *all_shares)
{
    call_begins();
    is_open(heap);
    struct place *place = place_of(all_shares);
    if (helpers == 0 || helpers > MPHEAP_MAX_HELPERS || place->crew) return call_ends(MPHEAP_BAD_NUMBER);
    if (!is_marking) return call_ends(MPHEAP_WRONG_PHASE);
    struct crew *crew = new_crew(helpers);
    if (!crew) return call_ends(MPHEAP_NO_MEMORY);
    deal_pages(crew);
    depth = 0;
    crew->core = heap->core;
    heap->core = NULL;
    *place = (struct place){ crew, 0, helpers, NULL };
    return call_ends(MPHEAP_OK);
}

uint32_t mpheap_hire(mpheap_shares *all_shares, mpheap_shares *one)
{
    call_begins();
    struct place *from = place_of(all_shares), *to = place_of(one);
    if (to->crew || !from->crew || from->count == 0) return call_ends(MPHEAP_BAD_NUMBER);
    void *hired = ask_for(1);
    if (!hired) return call_ends(MPHEAP_NO_MEMORY);
    from->count--;
    *to = (struct place){ from->crew, from->first + from->count, 1, hired };
    return call_ends(MPHEAP_OK);
}

/* ---- Helping ---- */

static void leave_to_pages(struct share *share, uint64_t base)
{
    uint64_t found, words;
    if (find(base, &found, &words)) memset(share->dirty + page_of(base), 1, page_of(base + words * 8 - 1) - page_of(base) + 1);
}

static void visit(struct share *share, uint64_t word)
{
    uint64_t base, words;
    if (!find(word, &base, &words) || __atomic_exchange_n(&is_marked[granule_of(base)], 1, __ATOMIC_RELAXED)) return;
    if (pages[page_of(base)].is_pointer_free) return;
    if (share->depth == OWN_ENTRIES)
        leave_to_pages(share, base);
    else
        share->stack[share->depth++] = base;
}

static void read_words(struct share *share, uint64_t from, uint64_t to)
{
    for (; from < to; from += 8) visit(share, word_at(from));
}

static void read_stack(struct share *share)
{
    uint64_t base, words;
    while (share->depth > 0) {
        if (!find(share->stack[--share->depth], &base, &words)) wrong("a marked object went", share->stack[share->depth]);
        if (words > share->left) {
            leave_to_pages(share, base);
        } else {
            share->left -= words;
            read_words(share, base, base + words * 8);
        }
    }
}

static void read_page(struct share *share, uint64_t page)
{
    uint64_t base, words;
    for (uint64_t at = start_of(page); holds_ordinary(page) && at < start_of(page + 1); at += 8)
        if (find(at, &base, &words) && __atomic_load_n(&is_marked[granule_of(base)], __ATOMIC_RELAXED)) visit(share, word_at(at));
}

static void read_dealt(struct share *share)
{
    uint64_t base, words;
    for (uint64_t k = 0; k < share->dealt_count; k++) {
        struct entry *entry = &share->dealt[k];
        if (find(entry->base, &base, &words) && !pages[page_of(base)].is_pointer_free)
            read_words(share, base + entry->next * 8, base + words * 8);
        read_stack(share);
    }
    for (uint64_t k = 0; k < share->to_read_count; k++) {
        read_page(share, share->to_read[k]);
        read_stack(share);
    }
}

/* Answers how many words it read of objects that it marked. */
static uint64_t help(struct share *share, uint64_t most)
{
    if (atomic_exchange(&share->is_busy, true)) wrong("two threads help on one handle", 0);
    share->left = most;
    if (!share->is_done) read_dealt(share);
    share->is_done = true;
    share->is_busy = false;
    return most - share->left;
}

uint64_t mpheap_help(mpheap_shares *handle, uint64_t most)
{
    uint64_t read = 0;
    struct place *place = place_of(handle);
    helping++;
    for (uint64_t k = 0; place->crew && k < place->count; k++) read += help(&place->crew->shares[place->first + k], most);
    helping--;
    return read;
}

/* ---- Coming back ---- */

uint32_t mpheap_join(mpheap_shares *all_shares, mpheap_shares *one)
{
    call_begins();
    struct place *to = place_of(all_shares), *from = place_of(one);
    if (!to->crew || !from->crew) return call_ends(MPHEAP_BAD_NUMBER);
    if (to->crew != from->crew) wrong("shares of two rounds are joined", 0);
    if (from->first != to->first + to->count) return call_ends(MPHEAP_BAD_NUMBER);
    for (uint64_t k = 0; k < from->count; k++)
        if (from->crew->shares[from->first + k].is_busy) wrong("a share comes back while its helper works", 0);
    to->count += from->count;
    give_back(from->hired);
    *from = (struct place){ 0 };
    return call_ends(MPHEAP_OK);
}

uint32_t mpheap_gather(mpheap_shares *all_shares, mpheap *heap)
{
    call_begins();
    struct place *place = place_of(all_shares);
    struct crew *crew = place->crew;
    if (heap->core) wrong("shares are gathered into an open heap", 0);
    if (!crew || place->count != crew->helpers) return call_ends(MPHEAP_BAD_NUMBER);
    if (helping > 0) wrong("what helpers do is gathered while one works", 0);
    for (uint64_t k = 0; k < crew->helpers; k++) {
        (void)help(&crew->shares[k], UINT64_MAX);
        for (uint64_t page = 0; page < used; page++) pages[page].is_dirty |= crew->shares[k].dirty[page];
    }
    heap->core = crew->core;
    drop_crew(crew);
    *place = (struct place){ 0 };
    return call_ends(MPHEAP_OK);
}
