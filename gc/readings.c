// Which described objects are read, and when: all that are marked, at a cycle's end; and some before. Trusted, not proved.
//
// What it owes the core: as described.c. It pays at the cycle's end, with no other thread running (ending.c): each described object that is
// marked is read, once, until no further one is marked.
//
// Before the end of a cycle in small steps those that are marked are read too, some at a time, so that what they lead to is marked by then. Their
// pages aren't closed, and nothing is known of later writes: so at the end all are read once more, and lead to little that isn't marked. To
// mark more is always right: what was let go meanwhile stays for one cycle.
// Counted under roots, links, finalizers and kinds.
#include "layer.h"

static bool is_marked(const struct described *one) { return mpgc_is_marked_here(mpgc_base_of(one)); }

// ---- Looking at all ----

#define NONE SIZE_MAX

// A look at so many records, the newest first, or the oldest, since chains mostly lead from the one to the other. What was read may lead by
// others to one that isn't marked yet: where such ones come, all is marked that was read of, and they are looked at again. That is done at the
// first, or, where it was for nothing, when twice as many have come. Where nothing led on by others, no other walk is needed.
struct walk {
    bool newest_first, has_led_on;
    bool is_left;          // what was read leads on, and not all is marked that it leads to
    size_t count, at;      // of so many, this one is next
    size_t first, last;    // of those that came; and the last that is looked at again
    size_t passed, patience;
};

static struct walk begin_walk(bool newest_first, size_t count)
{
    return (struct walk){ .newest_first = newest_first, .count = count, .first = NONE, .last = NONE };
}

static struct described *nth(const struct walk *walk, size_t at)
{
    return &mpgc_records.at[walk->newest_first ? walk->count - 1 - at : at];
}

// The objects that will be looked at soon, and mostly read.
static void fetch_ahead(const struct walk *walk)
{
    enum { AHEAD = 8 };
    if (walk->at + AHEAD < walk->count) __builtin_prefetch((void *)mpgc_base_of(nth(walk, walk->at + AHEAD)));
}

// The next one will be read, if it is marked and wasn't yet. Answers whether all is to be marked before another one is looked at.
static bool look_at_next(struct walk *walk)
{
    fetch_ahead(walk);
    struct described *one = nth(walk, walk->at);
    bool is_unread = one->granule != 0 && !mpgc_was_read(one);
    if (is_unread && is_marked(one)) {
        mpgc_will_be_read(one);
        if (walk->last != NONE) walk->patience = 0;
    } else if (is_unread && walk->is_left && walk->first == NONE) {
        walk->first = walk->at;
    }
    if (walk->at == walk->last) walk->last = NONE;
    walk->at++;
    return walk->first != NONE && walk->passed++ >= walk->patience;
}

// Those are read that will be, of so many words. Answers whether that was all.
static bool read_those(struct walk *walk, uint64_t *left)
{
    bool is_all = mpgc_read_those(left);
    if (mpgc_has_led_on()) walk->has_led_on = walk->is_left = true;
    return is_all;
}

// All is marked that was read of.
static void look_again(struct walk *walk)
{
    walk->last = walk->at - 1;
    walk->at = walk->first;
    walk->first = NONE;
    walk->is_left = false;
    walk->passed = 0;
    walk->patience = 2 * walk->patience + 1;
}

// ---- At a cycle's end ----

// Those that are marked and weren't read yet are read, with all that these lead to. Answers whether there may be more of them by then.
bool mpgc_read_described(bool newest_first)
{
    struct walk walk = begin_walk(newest_first, mpgc_records.count);
    uint64_t all = UINT64_MAX;
    while (walk.at < walk.count) {
        bool is_due = look_at_next(&walk);
        (void)read_those(&walk, &all);
        if (!is_due) continue;
        mpgc_mark_words();
        look_again(&walk);
    }
    mpgc_mark_words();  // what the last ones lead to
    return walk.has_led_on;
}

// All is marked that stays, and those of it were read.
void mpgc_drop_described(void) { mpgc_keep_records(mpgc_was_read); }

// ---- Before it ----

// What was begun for the cycle that marks, and for the records where they stand.
static struct walk early;
static unsigned walks, beginnings;
static uint64_t ended = UINT64_MAX;
static unsigned long moves;

static void begin_early(void)
{
    if (ended == mpgc.ended && moves == mpgc_records.moves) return;
    beginnings = ended == mpgc.ended ? beginnings + 1 : 1;
    ended = mpgc.ended;
    moves = mpgc_records.moves;
    early = begin_walk(true, mpgc_records.count);
    walks = 0;
    mpgc_begin_reading();
}

// The walk is over. Answers whether another one follows, since it has read some: of long chains between both kinds the end reads the rest.
static bool begin_next(void)
{
    enum { MOST = 16 };
    bool follows = early.has_led_on && ++walks < MOST;
    if (!follows) walks = 0;
    early = begin_walk(!follows || !early.newest_first, early.count);
    return follows;
}

// All that was read of is marked, of so many words at most. Answers whether that was all.
static bool mark_some(uint64_t *left)
{
    uint64_t read = 0, most = *left;
    GRANTED(mpheap_roots(&mpgc.heap));
    GRANTED(mpheap_mark(&mpgc.heap, most, &read));
    mpgc_empty_stack();
    mpgc_figures.marked += read;
    *left -= read < most ? read : most;
    return *left > 0;
}

// Answers whether there is more to do.
static bool go_on(uint64_t *left)
{
    bool is_due = false, is_read = read_those(&early, left);
    while (*left > 0 && early.at < early.count && !is_due) {
        is_due = look_at_next(&early);
        --*left;
        is_read = read_those(&early, left);
    }
    if (!mark_some(left) || !is_read) return true;
    if (is_due) look_again(&early);
    return early.at < early.count || begin_next();
}

// A piece of a cycle: some are read of those that are marked, and some of what they lead to is marked. Answers whether there is more to do,
// once all is marked. Where it stops other threads it is of more, as other pieces are (names/collections.c). Where records move again and again, since
// the program frees many, it would never be over: so the rest is left to the end then.
bool mpgc_read_some_described(void)
{
    enum { ALONE = 4096, STOPPING = 32768, MOST_BEGINNINGS = 4 };
    uint64_t left = mpgc_is_last_thread() ? ALONE : STOPPING;
    bool is_more = true;
    begin_early();
    if (beginnings > MOST_BEGINNINGS) return false;
    mpgc_empty_stack();
    mpgc_take_roots(true, false);
    while (is_more && left > 0) is_more = go_on(&left);
    mpgc_take_roots(false, false);
    return is_more;
}
