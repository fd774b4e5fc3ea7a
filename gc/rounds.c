// Marking in rounds, by the markers and the thread that collects: what waits to be read is dealt, each reads its share, and what they did is
// gathered. Trusted, not proved.
//
// What it owes the core, of mpheap.h:
//
//   "From mpheap_share to mpheap_gather .. no call       no other thread runs, and this one is in the middle of a call
//   is made on it, and no word of it is written"
//   "on a stack of 1 MB or more"                         the first marker makes all these calls, and the collecting thread mpheap_help alone
//   "each with a handle of its own"                      `shares`, by the number of the worker
//   "on handles that are open"                           the first `opened` of these: no worker of a higher number has work
//   "of one round"                                       there is one heap, and `lead` gathers what it dealt
//   what is left: "no entry", and "dirty pages"          ending.c reads these behind the last round, as it would without one
//   "told anew" behind mpheap_gather                     a round is made in full collections alone, up to whose end the program writes nothing
//
// What hangs from one entry is read by one helper. So the first round is short, and what is left then lies on pages, which the next one deals
// object by object; each round may be longer than the one before. Where one helper did most of it, as with a long list, the collecting
// thread goes on alone for longer and longer.
// Counted under marking side by side.
#include "layer.h"

// Words: that are marked alone before a round, so that nobody is woken for less, and where all are awake; that each helper reads in the first
// one; and by so much more in the next. And pages: where fewer are left dirty, and no two helpers have read all that they might, another round isn't worth it.
enum { ALONE = 1 << 16, EARLY = 1 << 13, FIRST_ROUND = 1 << 16, MOST_IN_ROUND = 1 << 24, LONGER = 4, LONGER_ROUND = 16, MANY_PAGES = 64 };

static mpheap_shares shares[MPHEAP_MAX_HELPERS];  // all stand at the first marker's, out of which the others come
static _Atomic unsigned opened;
static uint64_t has_read[MPHEAP_MAX_HELPERS];  // words, in this round
static uint64_t round_words;                    // that each may read in it
static unsigned helpers;
static bool is_shared;

// By the first marker, in whose memory they stay open. Where that has no more, there are fewer helpers.
void mpgc_open_shares(void)
{
    while (opened < MPHEAP_MAX_HELPERS && mpheap_shares_open(&shares[opened]) == MPHEAP_OK) opened++;
}

// In a child, with the memory in which they are.
void mpgc_forget_shares(void)
{
    for (opened = MPHEAP_MAX_HELPERS; opened > 0;) shares[--opened] = (mpheap_shares)MPHEAP_NO_SHARES;
}

static void must(uint32_t status, const char *sentence)
{
    if (status != MPHEAP_OK) mpgc_stop(sentence);
}

static void help(unsigned which) { has_read[which] = mpheap_help(&shares[which], round_words); }

// The first marker has what comes before and behind. Where memory is refused there are fewer shares, or none.
static void lead(void)
{
    unsigned first = helpers;
    is_shared = mpheap_share(&mpgc.heap, (uint8_t)helpers, &shares[0]) == MPHEAP_OK;
    while (is_shared && first > 1 && mpheap_hire(&shares[0], &shares[first - 1]) == MPHEAP_OK) first--;
    for (unsigned which = 1; which < helpers; which++) mpgc_tell(which);
    help(0);
    for (unsigned which = 1; which < helpers; which++) mpgc_await(which);
    for (; first < helpers; first++) must(mpheap_join(&shares[0], &shares[first]), "the heap refused mpheap_join");
    if (is_shared) must(mpheap_gather(&shares[0], &mpgc.heap), "the heap refused mpheap_gather");
}

// What a marker does when it is told to.
void mpgc_work(unsigned which)
{
    if (which == FIRST_MARKER)
        lead();
    else
        help(which);
}

static void make_round(void)
{
    mpgc_call_begins();
    mpgc_tell(FIRST_MARKER);
    mpgc_await_telling(COLLECTING);
    help(COLLECTING);
    mpgc_has_done(COLLECTING);
    mpgc_await(FIRST_MARKER);
    mpgc_call_ends();
    mpgc_figures.rounds += is_shared;
}

static uint64_t alone;
static uint64_t rounds_in, called_in;  // the numbers of the last collections, from 1 on, that made rounds, and in which markers were called up early

// Where the last collection made rounds, so will this one: the markers are to be there when its first one begins. Answers whether they will be.
static bool call_up_early(void)
{
    uint64_t number = mpgc.ended + 1;
    if (rounds_in == 0 || rounds_in + 1 != number || called_in == number) return false;
    called_in = number;
    mpgc_call_up();
    return true;
}

// Much may be to be marked. Answers how many words are to be marked alone first: all, where there are no markers, or a cycle ends that has
// marked in small steps.
uint64_t mpgc_begin_rounds(void)
{
    helpers = mpgc.is_marking ? 1 : mpgc_markers() + 1;
    if (helpers > opened) helpers = opened;
    alone = helpers > 1 && call_up_early() ? EARLY : ALONE;
    return helpers > 1 ? alone : UINT64_MAX;
}

// The words of a round are counted, to pace by: what helpers read of objects that they marked, and all of the pages that were dealt, as
// ending.c counts them. Answers whether it paid: no helper did more than two thirds.
static bool count_round(uint64_t dealt_pages)
{
    uint64_t all = 0, most = 0;
    for (unsigned which = 0; which < helpers; which++) {
        all += has_read[which];
        if (has_read[which] > most) most = has_read[which];
    }
    mpgc_figures.marked += all + dealt_pages * (PAGE / WORD);
    return 3 * most <= 2 * all;
}

// Two helpers at least have read nearly all that they might: much may be left, on however few pages.
static bool were_busy(void)
{
    unsigned busy = 0;
    for (unsigned which = 0; which < helpers; which++) busy += has_read[which] >= round_words / 2;
    return busy >= 2;
}

// Rounds are made while they pay. Answers how many words are to be marked alone then, before there may be more of them.
uint64_t mpgc_mark_in_rounds(void)
{
    uint64_t dirty = mpgc_dirty_pages();
    bool pays, goes_on;
    round_words = FIRST_ROUND;
    rounds_in = mpgc.ended + 1;
    mpgc_call_up();
    do {
        make_round();
        if (!is_shared) return UINT64_MAX;
        pays = count_round(dirty);
        dirty = mpgc_dirty_pages();
        goes_on = pays && dirty > 0 && (dirty >= MANY_PAGES || were_busy());
        if (round_words < MOST_IN_ROUND) round_words *= LONGER_ROUND;
    } while (goes_on);
    if (!pays) mpgc_stand_down();
    alone = pays ? ALONE : alone * LONGER;
    return alone;
}
