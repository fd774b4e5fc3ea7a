// What is done at a cycle's end, once all is marked that the roots lead to and before what isn't marked goes: links are decided on,
// finalizers are found, functions of the program mark. No other thread runs. Trusted, not proved.
//
// What it owes the core, of mpheap.h:
//
//   the roots are as the program has them          at mpheap_finish: they were read just before, and all that they lead to is marked by
//                                                  mpheap_roots and mpheap_mark; what is marked is kept (clause EndsCycle.forgets). The
//                                                  functions of the program that run here may mark more, which is always right. A word
//                                                  that they write counts as written behind mpheap_finish: so what it names has to be
//                                                  marked, as with bdwgc. (Guile 2.2 writes where its mark stack lies, no object.)
//   whether an object goes                         mpheap_is_marked, clause HasMark; no page is dirty and no word left to read then
// Counted under roots, links, finalizers and kinds.
#include "layer.h"

static bool is_ending;
static bool has_marked_all;  // that was pushed so far

bool mpgc_is_marked(uintptr_t base)
{
    mpgc_lock();
    bool answer = mpgc_is_marked_here(base);
    mpgc_unlock();
    return answer;
}

// Of what waits to be read and dirty pages have is marked what it leads to, of so many words. Answers whether there may be more. The words
// that are read are counted, to pace by: of a dirty page all, since it has objects that found no room on the core's mark stack, but for the
// few that the program has written last.
static bool mark_some(uint64_t most)
{
    uint64_t read, was_dirty = 1;
    while (was_dirty == 1) {
        GRANTED(mpheap_mark(&mpgc.heap, most, &read));
        mpgc_figures.marked += read;
        if (read == most) return true;
        GRANTED(mpheap_retrace(&mpgc.heap, &was_dirty));
        mpgc_figures.marked += was_dirty * (PAGE / WORD);
        most -= read;
    }
    return false;
}

// All that the stack holds and dirty pages have is marked, with all that it leads to: by this thread, or by the markers too, where it is much.
void mpgc_mark_words(void)
{
    GRANTED(mpheap_roots(&mpgc.heap));
    for (uint64_t alone = mpgc_begin_rounds(); mark_some(alone);) alone = mpgc_mark_in_rounds();
    mpgc_stand_down();
}

// The same, with what the words of described objects lead to. Then the stack is empty.
void mpgc_mark_all(void)
{
    if (!is_ending || (has_marked_all && !mpgc_has_pushed())) return;
    mpgc_mark_words();
    for (bool newest_first = true; mpgc_read_described(newest_first); newest_first = !newest_first) { }
    mpgc_empty_stack();
    has_marked_all = true;
}

// The roots are on the stack, or marked.
void mpgc_end_marks(void)
{
    mpgc_figures.described = 0;
    if (mpgc_count_links() == 0 && mpgc_count_described() == 0 && !mpgc_has_to_find()) return;
    is_ending = true;
    has_marked_all = false;
    mpgc_take_roots(true, true);
    mpgc_begin_reading();
    mpgc_mark_all();
    mpgc_mark_toggled();
    mpgc_mark_from_disclaimed();
    mpgc_mark_all();
    mpgc_decide_links(false);
    mpgc_find_ready();
    mpgc_mark_all();
    mpgc_decide_links(true);
    mpgc_find_disclaimed();
    mpgc_mark_all();
    mpgc_drop_described();
    mpgc_take_roots(false, false);
    is_ending = false;
}
