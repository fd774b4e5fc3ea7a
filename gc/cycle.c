// The pieces of a cycle. Which comes next is told by names/steps.c, and any order will do: what doesn't fit is refused by the core, or by
// protection.c, and the program is stopped. Trusted, not proved.
//
// What it owes the core, of mpheap.h:
//
//   "Calls .. never from a signal handler that     signals are blocked in each step (signals.c)
//   interrupted one of them"
//   "the address was told by mpheap_written        after mpheap_begin, which cleans every page, `mpgc_tell_open`; before so many
//   first, after the last mpheap_begin,            retraces `mpgc_close_lowest`; after mpheap_finish the layer's own object is
//   mpheap_retrace, .. mpheap_finish .."           freed (spare.c): each before the program runs on
//   the roots are as the program has them          at mpheap_finish: they are read just before, with nothing between. At mpheap_roots
//                                                  they needn't be.
//   "while the call runs, no word .. is written    mpheap_mark_beside, mpheap_retrace_beside and mpheap_retrace_page_beside are called
//   but on pages that were dirty when it began"    where the collector has a thread of its own: argued at the head of protection.c
// Counted under the rest.
#include "layer.h"

static void begin(void)
{
    GRANTED(mpheap_begin(&mpgc.heap));
    mpgc.is_marking = true;
    mpgc_figures.marked = 0;
    mpgc_tell_open();
}

static void read_roots(void)
{
    mpgc_read_roots();
    GRANTED(mpheap_roots(&mpgc.heap));
}

static void end(void)
{
    uint64_t count;
    double start = mpgc_now();
    mpgc_drop_cycle();
    mpgc_read_roots();
    mpgc_end_marks();
    GRANTED(mpheap_finish(&mpgc.heap, &count));
    mpgc_end_collection(false, start);
}

// Counted under the collector's thread.
// A piece that reads words of the program, or cleans pages, is done while no other thread runs, but for those that have calls for it, where
// the collector has a thread of its own. Pages to which the kernel may be writing aren't read again beside it: so where no other page is
// open, the lowest dirty ones are read in a stop.
static bool needs_stop(enum piece piece)
{
    bool goes_beside = piece == MARK || (piece == REREAD && (mpgc_is_one_to_close() || !mpgc_is_pinned()));
    return piece >= BEGIN && !(goes_beside && mpgc_is_beside());
}

static const mpheap_asked asked = MPHEAP_ASKED;

static uint64_t mark(uint64_t words)
{
    uint64_t read = 0;
    if (mpgc_world_is_stopped())
        GRANTED(mpheap_mark(&mpgc.heap, words, &read));
    else
        GRANTED(mpheap_mark_beside(&mpgc.heap, words, &asked, &read));
    mpgc_figures.marked += read;
    return read;
}

// Closed pages are read again by their numbers, and what each leads to is marked before the next one, as far as so many words go: else most of that
// would find no room on the core's mark stack, and make pages dirty. Answers how many of them were dirty.
static uint64_t reread_pages(struct pages pages, uint64_t words)
{
    uint64_t read = 0, count;
    for (size_t page = pages.from; page < pages.to; page++) {
        GRANTED(mpheap_retrace_page_beside(&mpgc.heap, (uint32_t)page, &asked, &count));
        read += count;
        if (words > 0) words -= mark(words);
    }
    return read;
}

// Whether there was a dirty page.
static uint64_t reread_one(void)
{
    uint64_t count;
    if (mpgc_world_is_stopped())
        GRANTED(mpheap_retrace(&mpgc.heap, &count));
    else
        GRANTED(mpheap_retrace_beside(&mpgc.heap, &asked, &count));
    return count;
}

// Counted under the rest.
// As many of the lowest dirty ones, in the same way, until so many words are marked.
static uint64_t reread_lowest(size_t most, uint64_t words)
{
    uint64_t read = 0;
    while (read < most && words > 0 && reread_one() > 0) {
        read++;
        words -= mark(words);
    }
    return read;
}

// The lowest open pages are closed, no more than the batch still has, and these read again; or some dirty ones, where none is to be closed: all
// before the lock is given back. Answers how many were read.
static uint64_t reread(void)
{
    enum { STOPPED = 256, BESIDE = 8, WORDS = 8192 };
    size_t most = mpgc_world_is_stopped() ? STOPPED : BESIDE, left = mpgc_left_in_batch();
    uint64_t read;
    if (left < most) most = left;
    if (mpgc_is_one_to_close()) {
        read = reread_pages(mpgc_close_lowest(most), WORDS);
    } else {
        read = reread_lowest(most, WORDS);
        mpgc_tell_pinned();
    }
    mpgc_figures.retraces += read;
    return read;
}

static void start(void)
{
    mpgc_tell_start();
    mpgc_start_closing();
}

// Answers how many words were read, or whether there was something to sweep, or is more to close or of described objects.
static uint64_t do_piece(enum piece piece, uint64_t words)
{
    enum { SWEPT = 8 };
    switch (piece) {
    case SWEEP: return mpgc_sweep_some(SWEPT);
    case START: start(); break;
    case CLOSE: return mpgc_close_some();
    case BEGIN: begin(); break;
    case ROOTS: read_roots(); break;
    case MARK: return mark(words);
    case REREAD: return reread();
    case DESCRIBED: return mpgc_read_some_described();
    case END: end(); break;
    case NO_PIECE: break;
    }
    return 0;
}

// The next step of the cycle, of about so many words where it marks. At rest one begins. From its first piece on that needs a stop no other
// thread runs. Before each is told what was opened under a call, or by a handler in the middle of a telling: a handler that came behind that call
// may have written there, and makes this step. Where it isn't known on which stack the first thread is, the collector's thread leaves all to the
// requests, which know.
static bool go_on(void *left)
{
    uint64_t words = *(uint64_t *)left;
    sigset_t old;
    bool was_marking = mpgc.is_marking, has_stopped = false;
    mpgc_block_signals(&old);
    enum piece piece = mpgc_first_piece();
    while (piece != NO_PIECE) {
        if (!has_stopped && needs_stop(piece)) {
            mpgc_stop_to_collect();
            has_stopped = true;
        }
        if (has_stopped && mpgc_is_beside() && !mpgc_first_is_at_home()) {
            mpgc_leave_beside();
            break;
        }
        mpgc_tell_noted();
        piece = mpgc_piece_after(piece, do_piece(piece, words), &words);
    }
    if (has_stopped) mpgc_start_after_collecting();
    mpgc_restore_signals(&old);
    if (was_marking && !mpgc.is_marking) mpgc_tell_end();
    return true;
}

void mpgc_step(uint64_t words)
{
    mpgc_enter();
    (void)mpgc_from_here(go_on, &words);
}

bool mpgc_is_marking(void) { return mpgc.is_marking; }
