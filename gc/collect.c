// Full collections, and what every collection does at its end. Trusted, not proved.
//
// What it owes the core, of mpheap.h:
//
//   "Calls .. never from a signal handler that     signals are blocked from the first call to the last (signals.c)
//   interrupted one of them"
//   "the address was told by mpheap_written        from mpheap_begin to mpheap_finish the program doesn't run, and writes nothing; then
//   first, after the last .. mpheap_finish .."     the layer's own object is freed (spare.c), before the program runs on
//   the roots are as the program has them          at mpheap_finish: they are read just before, with nothing between
//
// The cells of what went are swept later, a few pages at a time: mpheap_collect would sweep them all in the stop.
// Counted under the rest.
#include "layer.h"

// What follows each collection, full or in small steps.
void mpgc_end_collection(bool is_full, double start)
{
    mpgc.is_marking = false;
    mpgc.ended++;
    mpgc_stop_closing();
    mpgc_need_full_cycle();
    CALL(GC_gc_no, mpheap_gc_no(&mpgc.heap));
    mpgc_clear_links();
    mpgc_take_ready();
    mpgc_set_budget();
    mpgc_count_collection(is_full, start);
}

// Roots that don't fit the stack are marked meanwhile.
static void end_with_roots(void)
{
    uint64_t count;
    mpgc_figures.marked = 0;
    mpgc_read_roots();
    mpgc_mark_words();
    mpgc_end_marks();
    GRANTED(mpheap_finish(&mpgc.heap, &count));
}

// What the roots don't reach goes. A cycle that was marking ends first: it keeps what it has marked, and the next one is exact.
static void collect(void)
{
    if (mpgc.is_marking) end_with_roots();
    mpgc.is_marking = false;
    GRANTED(mpheap_begin(&mpgc.heap));
    end_with_roots();
}

static bool collect_fully(void *unused)
{
    (void)unused;
    sigset_t old;
    if (mpgc_holds_threads_back()) mpgc_leave_open();
    mpgc_tell_start();
    mpgc_call_markers();
    double start = mpgc_now();
    mpgc_block_signals(&old);
    mpgc_stop_to_collect();
    mpgc_tell_noted();
    mpgc_drop_cycle();
    mpgc_open_all();
    collect();
    mpgc_end_collection(true, start);
    mpgc_start_after_collecting();
    mpgc_restore_signals(&old);
    mpgc_tell_end();
    return true;
}

void mpgc_collect(void)
{
    mpgc_enter();
    (void)mpgc_from_here(collect_fully, NULL);
}
