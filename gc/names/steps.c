// A cycle in small steps: which piece is next. It answers, and cycle.c does.
//
//     at rest -> pages are swept and closed, a few a step -> it begins -> roots are read -> marking -> described objects, some a step, and
//     marking -> dirty pages are read again -> roots again -> marking, described objects and dirty pages -> its end
//
// Each stop of the program is one of: some pages, the marks' beginning, the roots, some words and a batch of dirty pages, some described
// objects, and the end, which reads the roots, what few pages were written last, and described objects once more.
//
// How dirty pages are read again, so that it converges beside a program that writes everywhere: a batch closes as many of the lowest open
// pages as it reads again, so that no page is closed long before it is read. A batch is six times the pages that the program made dirty
// since the last one, and at least sixteen, or half of the last cycle's; and little is asked for between two, so that each leaves fewer
// dirty pages than the one before it. Where no more than half a batch is dirty the roots are read once more, and then the cycle ends. And
// behind a cycle with many faults the next one begins with its pages open, all of them dirty: none faults then before it was read again,
// and a fault costs three times what reading a page again costs. What a page leads to is marked before the next one is read (cycle.c), and counts among
// the step's words: so a batch may take several steps. Where most pages can't be closed, since the kernel would need too many
// mappings, a cycle's end would read them all, which is longer than to mark all once: so full collections come in its place for a while.
#include "paced.h"

enum {
    LEAST = 16, TIMES = 6,          // pages of a batch: at least, and for each that became dirty since the last batch
    BETWEEN = 16,                   // words asked for between two batches
    BESIDE = 4,                     // batches of a cycle beside the program's threads that leave few pages to its end
    AT_ONCE = 8,                    // pages of a step beside them, or more where they run ahead
    ROOT_ROUNDS = 2, FEW_WORDS = 512,
    WRITTEN = 4, STILL = 64,        // pages for each fault of a cycle, behind which the next begins with open pages, and stays so
};

static enum piece next = SWEEP;  // with which a step begins
static unsigned root_rounds;
static size_t batch, left_in_batch, in_step;
static size_t last_dirty;        // pages, at the end of a batch in the step before this one; or all
static unsigned long faults_before, retraces_before;
static unsigned batches;
static bool is_late;             // pages are read again
static bool has_read_described;  // since the roots were read, or these led to little when they were
static bool is_reading;          // described objects
static bool leads_to_little;     // what was read of them last
static uint64_t marked_then;     // words in all, before they were read
static bool is_open;             // cycles begin with open pages
static uint64_t marked;          // words, since the roots were read
static uint64_t marked_before;   // in all, before pages are read again

bool mpgc_is_in_cycle(void) { return next != SWEEP && next != START; }

bool mpgc_roots_are_read(void) { return next == MARK; }

static bool reads_roots(enum piece piece) { return piece == ROOTS || piece == END; }
bool mpgc_will_read_roots(void) { return reads_roots(next); }

// So many pages are read again before words are marked.
size_t mpgc_left_in_batch(void) { return left_in_batch; }

// Another collection has the heap now, or the cycle ends.
void mpgc_drop_cycle(void)
{
    next = SWEEP;
    is_late = false;
}

// The program asked for a cycle: that one closes pages.
void mpgc_skip_sweeping(void)
{
    is_open = false;
    if (next == SWEEP) next = START;
}

// What may go, or is to stay, of toggle references is asked once more before the stop in which a cycle ends: as late as other threads run.
enum piece mpgc_first_piece(void)
{
    if (next == END) mpgc_ask_toggled();
    return next;
}

// The step is over, and the next one begins with this piece.
static enum piece stop_before(enum piece piece)
{
    next = piece;
    return NO_PIECE;
}

static void begin(void)
{
    root_rounds = 0;
    batches = 0;
    left_in_batch = 0;
    is_reading = leads_to_little = false;
    last_dirty = MAX_PAGES;
    batch = batch / 2 > LEAST ? batch / 2 : LEAST;
}

// So many dirty pages are left to the cycle's end. Batches that stop nobody may be more.
static size_t few_of_batch(void)
{
    if (!is_late) return 0;
    return mpgc_is_beside() && batches++ < BESIDE && batch / 2 > LEAST ? LEAST : batch / 2;
}

// The core reads the lowest dirty page, so that batches of fewer pages than the program writes meanwhile would never come to the upper ones.
// Of larger ones each leaves fewer dirty pages than the one before it; what is half a batch is left to the end. The first is read in any
// case, since few pages may lead to much. A batch is kept in mind for the next cycle, or half of it.
static size_t next_batch(void)
{
    size_t dirty = mpgc_dirty_pages(), newer = dirty > last_dirty ? dirty - last_dirty : 0;
    if (newer * TIMES > batch) batch = newer * TIMES;
    size_t few = few_of_batch();
    last_dirty = dirty;
    is_late = true;
    if (dirty <= few) return 0;
    return dirty < batch ? dirty : batch;
}

// What a cycle has marked is counted, to pace by. Most is what it read off entries; but objects that found no room on the core's mark stack are
// read with their pages, as are those on pages that are open from the beginning. No fault told of these, so each counts whole.
static void count_pages(size_t faults)
{
    size_t retraces = mpgc_figures.retraces - retraces_before;
    if (retraces > faults) mpgc_figures.marked += (retraces - faults) * (PAGE / WORD);
}

// All is marked that the roots and the pages read led to. What was made while the cycle marked may be named by roots alone: they are read
// again until that leads to little.
static enum piece roots_or_end(void)
{
    bool is_little = root_rounds > 0 && marked <= FEW_WORDS;
    size_t faults = mpgc_figures.faults - faults_before;
    if (is_little || root_rounds == ROOT_ROUNDS) {
        count_pages(faults);
        if (mpgc_dirty_pages() > mpgc_figures.most_left) mpgc_figures.most_left = mpgc_dirty_pages();
        is_open = faults * (is_open ? STILL : WRITTEN) > mpgc_pages_of(ORDINARY);
        return END;
    }
    root_rounds++;
    last_dirty = MAX_PAGES;
    return ROOTS;
}

// So many words were marked of those that are left of the step. Answers whether it is over.
static bool uses_up(uint64_t words, uint64_t *left)
{
    *left -= words < *left ? words : *left;
    if (*left == 0) last_dirty = MAX_PAGES;
    return *left == 0;
}

static enum piece begin_reading(void)
{
    if (!is_reading) marked_then = mpgc_figures.marked;
    is_reading = true;
    return DESCRIBED;
}

static enum piece after_mark(uint64_t read, uint64_t *left)
{
    marked += read;
    if (uses_up(read, left)) return NO_PIECE;
    if (!has_read_described && mpgc_count_described() > 0 && mpgc_is_moment_over()) return begin_reading();
    if (left_in_batch == 0) left_in_batch = next_batch();
    marked_before = mpgc_figures.marked;
    return left_in_batch == 0 ? roots_or_end() : REREAD;
}

// What they lead to is marked in the next step; or there was nothing more. Where it was little they aren't read again before the cycle's end, which
// does so: to look at each takes as long as to read it.
static enum piece after_described(bool is_more)
{
    is_reading = is_more;
    has_read_described = !is_more;
    leads_to_little = mpgc_figures.marked - marked_then <= FEW_WORDS;
    return is_more ? NO_PIECE : MARK;
}

static enum piece after_reread(size_t pages, uint64_t *left)
{
    if (pages == 0) return roots_or_end();
    left_in_batch -= pages < left_in_batch ? pages : left_in_batch;
    last_dirty -= pages < last_dirty ? pages : last_dirty;
    in_step += pages;
    bool is_over = uses_up(mpgc_figures.marked - marked_before, left);
    if (!is_over && left_in_batch > 0 && (!mpgc_is_beside() || in_step < AT_ONCE * mpgc_lag())) return MARK;
    in_step = 0;
    return NO_PIECE;
}

static enum piece piece_after(enum piece piece, uint64_t did, uint64_t *left)
{
    if (is_late && !mpgc_is_beside()) mpgc_figures.next = mpgc_figures.since + BETWEEN;
    switch (piece) {
    case SWEEP: return did ? NO_PIECE : START;
    case START: faults_before = mpgc_figures.faults; retraces_before = mpgc_figures.retraces; return stop_before(is_open ? BEGIN : CLOSE);
    case CLOSE:
        if (did) return NO_PIECE;
        if (mpgc_open_pages() <= mpgc_pages_of(ORDINARY) / 2 || !mpgc_rest()) return BEGIN;
        mpgc_drop_cycle();
        return NO_PIECE;
    case BEGIN: begin(); mpgc_marks_begin(); return stop_before(ROOTS);
    case ROOTS: marked = 0; has_read_described = !is_reading && leads_to_little; return stop_before(MARK);
    case MARK: return after_mark(did, left);
    case REREAD: return after_reread(did, left);
    case DESCRIBED: return after_described(did);
    default: return NO_PIECE;
    }
}

// What follows on a piece in the same step. Beside the program's threads with the roots another step begins, and where the program has to be
// asked before it, with the end.
enum piece mpgc_piece_after(enum piece piece, uint64_t did, uint64_t *left)
{
    enum piece after = piece_after(piece, did, left);
    bool begins_anew = (reads_roots(after) && mpgc_is_beside()) || (after == END && mpgc_has_toggled());
    return begins_anew ? stop_before(after) : after;
}
