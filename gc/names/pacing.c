// When to collect: what a program asks for, and what is due. It answers, and the audited files do.
//
// bdwgc's pace, by its free space divisor. So many words have to be asked for between two collections as are in proportion to what the next
// one will read: twice what is kept of ordinary and described objects, a quarter of the other pointer-free ones, and the roots; before a cycle
// in small steps no fewer than 16 pages hold. A full collection waits besides until the heap has filled the pages that it may have: where it has
// grown past them before so much was asked for, it may have a third more, and 16 pages more at least; where it needs less than half of them, each
// collection takes an eighth of them. What the program has freed itself wasn't asked for, but for an eighth. What it frees while a cycle marks, and
// more than it asks for meanwhile, counts as freed behind the end, since the cycle has marked it: one that ends in a low would bring others on the
// way to the next high. Pages that it asked for beforehand (GC_expand_hp) are filled first, and a cycle in small steps begins when half of those
// that are left are. As with bdwgc, a collection also comes where links and finalizers have become a third more, since a weak table keeps what is
// dead until then.
#include "paced.h"
#include <stdlib.h>

enum {
    LEAST = 1024,         // words, however full the heap is
    OWN = 30000,          // of bdwgc's own data, which it reads with the roots
    LEAST_PAGES = 192,    // by which the heap may grow, by the divisor
    LEAST_MORE = 16,      // and whatever that is, as with bdwgc; as much is asked for between two cycles in small steps
    BETWEEN_LOOKS = 256,  // words asked for between two looks, where there is something to do
    BETWEEN_WAKES = 4096, // and where the collector's thread does it
    LEAST_ENTRIES = 4096, // of tables, by which they may grow between two collections
    EARLY = 2,            // a cycle beside the program begins at this part of a budget, and behind a whole one requests help
    MOST_LAG = 16,
    SHRINKS = 8,          // a collection takes no more than this part of the pages that the heap may have
};

static uint64_t budget;               // words to ask for before the next collection
static uint64_t left_over;            // that stood in runs behind the last one: as many mostly stand there always, so that they bring none
static uint64_t kept;                 // words of ordinary objects that the last one left, or more
static size_t allowed;                // pages, which the heap fills before it
static size_t still_allowed;          // at least so many, since there were not many more before the last one
static size_t granted;                // at least so many, since the program asked for them
static size_t full;                   // the same, or as many as it has already
static size_t used_then;              // pages in use behind the last one, swept or not
static bool is_ripe;                  // so much was asked for
static uint64_t unfilled_until;       // words to ask for, before which the pages can't be filled
static bool is_settled;               // all pages are swept and open
static bool has_begun;                // the marks of a cycle
static uint64_t taken_then;           // words of objects, where they did
static uint64_t freed_then;           // and of those that were freed
static uint64_t freed_early;          // while the last cycle marked, more than were asked for
static bool is_incremental;

static GC_word rests_until;           // collections were made: before, they are full ones

static bool makes_steps(void) { return is_incremental && !mpgc_holds_threads_back() && GC_gc_no >= rests_until; }

// Steps don't pay. Answers whether that is new.
bool mpgc_rest(void)
{
    enum { RESTS = 4 };
    if (GC_gc_no < rests_until) return false;
    rests_until = GC_gc_no + RESTS;
    return true;
}

static uint64_t divisor(void) { return GC_free_space_divisor ? GC_free_space_divisor : 1; }

// So many more than this many are allowed where these were too few.
static size_t more_than(size_t pages)
{
    size_t more = (pages > LEAST_PAGES ? pages : LEAST_PAGES) / divisor();
    return more > LEAST_MORE ? more : LEAST_MORE;
}

static uint64_t words_of(size_t used, enum page_kind kind)
{
    size_t pages = mpgc_pages_of(kind);
    return (uint64_t)(pages < used ? pages : used) * (PAGE / WORD);
}

// Words of ordinary objects that the last collection read, of so many pages in use. A page that was read more than once counts as often, and one
// that is free counts as what it was last given to, so these are the most.
static uint64_t marked_in(size_t used)
{
    uint64_t most = words_of(used, ORDINARY);
    return mpgc_figures.marked < most ? mpgc_figures.marked : most;
}

// And of described ones, which to the core are pointer-free.
static uint64_t described_in(size_t used)
{
    uint64_t most = words_of(used, POINTER_FREE);
    return mpgc_figures.described < most ? mpgc_figures.described : most;
}

// And of pointer-free ones, which it left.
static uint64_t pointer_free_in(size_t used)
{
    uint64_t most = words_of(used, POINTER_FREE), left = (uint64_t)used * (PAGE / WORD) - kept;
    return left < most ? left : most;
}

static void set_budget_for(size_t used)
{
    uint64_t room = (mpgc_figures.limit > used ? mpgc_figures.limit - used : 0) * (PAGE / WORD);
    uint64_t most = makes_steps() ? room / 2 : room * 3 / 4;  // a cycle needs room while it marks
    kept = marked_in(used) + described_in(used);
    budget = (2 * kept + pointer_free_in(used) / 4 + mpgc_figures.roots / WORD + OWN) / divisor();
    uint64_t spare = (granted > used ? granted - used : 0) * (PAGE / WORD);
    if (budget < spare / 2) budget = spare / 2;
    if (makes_steps() && budget < LEAST_MORE * (PAGE / WORD)) budget = LEAST_MORE * (PAGE / WORD);
    if (budget > most) budget = most;
    if (budget < LEAST) budget = LEAST;
    size_t enough = 2 * (used + used / divisor() + budget / (PAGE / WORD)) + more_than(0);
    if (allowed > enough) allowed = enough > still_allowed ? enough : still_allowed;
    if (allowed < granted) allowed = granted;
}

// What is freed from now on may be marked before it is freed.
void mpgc_marks_begin(void)
{
    has_begun = true;
    taken_then = mpgc_figures.taken;
    freed_then = mpgc_figures.freed;
}

static uint64_t freed_since_then(void)
{
    uint64_t freed = mpgc_figures.freed - freed_then, taken = mpgc_figures.taken - taken_then;
    uint64_t more = freed > taken ? freed - taken : 0;
    return more < mpgc_figures.marked ? more : mpgc_figures.marked;
}

static uint64_t freed(void) { return mpgc_figures.freed + freed_early; }

// After a collection. Of a page that isn't swept half counts. What is still to be given out will be asked for from now on.
void mpgc_set_budget(void)
{
    freed_early = has_begun ? freed_since_then() : 0;
    has_begun = false;
    size_t used = used_then = mpgc_used_pages() + freed_early / (PAGE / WORD);
    left_over = mpgc_words_in_runs();
    still_allowed = allowed - allowed / SHRINKS;
    set_budget_for(used - mpgc_pending_pages() / 2);
    full = used < allowed ? allowed : used < allowed + allowed / 4 ? used : allowed + allowed / 4;
    uint64_t asked = mpgc_figures.since + mpgc_words_taken_back(true);
    if (asked > left_over) mpgc_figures.total += asked - left_over;
    mpgc_figures.since = left_over;
    mpgc_figures.taken = mpgc_figures.freed = 0;
    mpgc_figures.next = left_over + BETWEEN_LOOKS;
    mpgc_figures.most_entries = mpgc_figures.entries + (mpgc_figures.entries / 3 > LEAST_ENTRIES ? mpgc_figures.entries / 3 : LEAST_ENTRIES);
    is_ripe = false;
    unfilled_until = 0;
    is_settled = false;
}

static uint64_t asked_since(void) { return mpgc_figures.since > left_over ? mpgc_figures.since - left_over : 0; }

// Of so many words that were there and what was asked for since, what wasn't freed. Of a freed object it isn't known by how many words it was
// asked for: so it is what the others take, which is no less, but no more than was asked for in all.
static uint64_t left_of(uint64_t older)
{
    uint64_t asked = older + asked_since(), taken = older + mpgc_figures.taken;
    uint64_t left = taken > freed() ? taken - freed() : 0;
    return left < asked ? left : asked;
}

// By this pages fill; but as with bdwgc a collection is due by no less than an eighth of what was asked for.
static uint64_t still_there(void) { return left_of(0); }

// Pages that were in use when the last collection had ended, once all is swept: without what was asked for since and wasn't freed; and with what
// was freed of older ones, since that is taken off what was asked for.
static size_t used_before(void)
{
    uint64_t taken = mpgc_figures.taken;
    size_t used = mpgc_used_pages(), newer = still_there() / (PAGE / WORD);
    if (freed() <= taken) return used > newer ? used - newer : 0;
    size_t older = used + (freed() - taken) / (PAGE / WORD), most = used > used_then ? used : used_then;
    return older < most ? older : most;
}

static void settle(void) { set_budget_for(used_before()); }

// The program asked for so many pages, for which it wants no collection.
void mpgc_grant(size_t pages)
{
    granted = pages;
    settle();
    if (full < allowed) full = allowed;
    unfilled_until = 0;
    mpgc_figures.next = 0;
}

// No collection begins but those that the program asks for.
bool mpgc_is_off(void) { return GC_dont_gc || GC_get_disable_automatic_collection(); }

static uint64_t asked_for(void)
{
    uint64_t least = asked_since() / 8, left = still_there();
    return left < least ? least : left;
}

// Words that are asked for before so many pages are taken, but no more than these. A page is hardly taken for less than half of its words.
static uint64_t words_before(size_t pages, uint64_t words)
{
    uint64_t half = (uint64_t)pages * (PAGE / WORD) / 2;
    return half < words ? half : words;
}

// Pages mostly keep something, so that one which was taken past those allowed stays, and each collection might wait for one more: so a quarter
// is the most, and what was kept or asked for, and not freed, tells it too, as far as that is known. To count pages takes as long as there are many,
// so that they aren't counted again before they may be filled. Where nearly all is freed that was asked for, the pages are what the program needs.
static bool has_filled_its_pages(bool is_mostly_freed)
{
    if (is_ripe && mpgc_figures.since < unfilled_until) return false;
    size_t used = mpgc_used_pages(), most = mpgc_figures.limit / 4 * 3;
    if ((!is_ripe || is_mostly_freed) && used > full) {
        while (allowed < used) allowed += more_than(allowed);
        full = allowed;
    }
    is_ripe = true;
    uint64_t asked = left_of(kept), room = allowed * (PAGE / WORD);
    if (used > full || used >= most || asked >= room) return true;
    unfilled_until = mpgc_figures.since + words_before((full < most ? full : most) - used, room - asked);
    return false;
}

// A cycle needs room while it marks, so it begins before pages are filled, but not where nearly all is freed.
static bool is_due(void)
{
    if ((is_incremental && mpgc_is_in_cycle()) || mpgc_figures.entries > mpgc_figures.most_entries) return true;
    uint64_t due = mpgc_is_beside() ? budget / EARLY : budget;
    if (asked_for() < due) return false;
    bool is_mostly_freed = still_there() < due;
    return (makes_steps() && !is_mostly_freed) || has_filled_its_pages(is_mostly_freed);
}

static enum due step_or_collection(void)
{
    GC_stop_func stop = mpgc_stop_func();
    if (!makes_steps()) return COLLECTION;
    return stop && stop() ? NOTHING : STEP;
}

// The collector has a thread of its own: a request wakes it, or helps it where it lags behind with a cycle.
static enum due due_beside(void)
{
    bool is_cycle_due = is_due(), is_needed = is_cycle_due || (GC_gc_no > 0 && !is_settled);
    bool is_late = is_cycle_due && (asked_since() >= budget || mpgc_figures.entries > mpgc_figures.most_entries + LEAST_ENTRIES);
    mpgc_figures.next = !is_needed ? left_over + budget / EARLY : mpgc_figures.since + (is_late ? BETWEEN_LOOKS : BETWEEN_WAKES);
    if (!is_needed) return NOTHING;
    return is_late ? step_or_collection() : WAKE;
}

// So many times as long may a step beside the program be, since that runs ahead.
unsigned mpgc_lag(void)
{
    uint64_t begun = budget / EARLY, asked = asked_since(), lag = asked > begun ? (asked - begun) * MOST_LAG / budget : 0;
    return lag < MOST_LAG ? (unsigned)lag + 1 : MOST_LAG;
}

enum due mpgc_due_to_collector(void)
{
    if (mpgc_is_off()) return NOTHING;
    if (is_due()) return step_or_collection();
    return is_settled ? NOTHING : TIDYING;
}

// So many words were asked for that a look is due, or the program asked for one.
enum due mpgc_due(bool is_asked)
{
    mpgc_figures.next = mpgc_figures.since + BETWEEN_LOOKS;
    if (mpgc_is_off()) return NOTHING;
    if (mpgc_is_beside() && !is_asked) return due_beside();
    if (is_due()) return step_or_collection();
    return is_asked ? NOTHING : TIDYING;
}

// So many words have to be asked for before the next collection at least. An object takes no more than twice what it was asked for by.
static uint64_t words_to_due(void)
{
    uint64_t asked = asked_since(), taken = mpgc_figures.taken, enough = budget + freed();
    uint64_t left = asked < budget ? budget - asked : 0, half = taken < enough ? (enough - taken) / 2 : 0;
    return left > half ? left : half;
}

// Where nothing was left to do, the next look is at the next collection.
void mpgc_tidied(bool did_some)
{
    if (!did_some && !is_settled && !mpgc_give_back_some()) {
        settle();
        is_settled = true;
    }
    uint64_t most = mpgc_figures.since + words_to_due();
    if (is_settled && most > mpgc_figures.next) mpgc_figures.next = most;
}

// What was given back the heap may have no more.
static void give_back_room(void)
{
    GC_alloc_lock();
    still_allowed = 0;
    settle();
    GC_alloc_unlock();
}

static int collect(GC_stop_func stop, bool unmaps)
{
    bool answer = mpgc_collect_unless(stop);
    if (!answer) return false;
    mpgc_unmap(unmaps);
    if (unmaps || GC_get_force_unmap_on_gcollect()) give_back_room();
    return true;
}

void GC_gcollect(void) { (void)collect(mpgc_stop_func(), false); }

void GC_gcollect_and_unmap(void) { (void)collect(NULL, true); }

int GC_try_to_collect(GC_stop_func stop) { return collect(stop, false); }

void GC_enable_incremental(void)
{
    GC_init();
    if (GC_dont_gc || GC_find_leak || getenv("GC_DISABLE_INCREMENTAL")) return;
    is_incremental = true;
    mpgc_will_close();
    settle();
    mpgc_figures.next = 0;
}

int GC_is_incremental_mode(void) { return is_incremental; }

void GC_start_incremental_collection(void)
{
    GC_init();
    if (makes_steps() && !GC_dont_gc) mpgc_start_cycle();
    mpgc_figures.next = 0;
}

int GC_incremental_protection_needs(void) { return GC_PROTECTS_POINTER_HEAP; }
