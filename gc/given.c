// Memory of free pages is given back to the system. Trusted, not proved.
//
// What it owes the core, of mpheap.h:
//
//   "the memory of a mapped heap's free pages may be     of what mpheap_free_run answers, under the lock, so that nothing comes to lie
//   given back to the system"                            there meanwhile, and no handler comes between; no further than the run goes.
//                                                        Which of them, and when, is said in names/unmap.c
//   kinds are as the page's                              mpgc_learn, for each page
// Counted under sizes and memory.
#include "layer.h"
#include <sys/mman.h>

// So many free pages in a row, of those that were ever used: the lowest run from this page on; or 0.
size_t mpgc_free_run(size_t from, size_t *first)
{
    uint32_t found = 0, pages = 0;
    size_t used = mpgc_ever_used_pages();
    bool is_one;
    CALL(is_one, mpheap_free_run(&mpgc.heap, (uint32_t)from, &found, &pages));
    *first = found;
    return !is_one || found >= used ? 0 : pages < used - found ? pages : used - found;
}

// What is free of these pages is given back.
void mpgc_give_back(size_t from, size_t to)
{
    size_t first, pages;
    sigset_t old;
    mpgc_lock();
    mpgc_block_signals(&old);
    while (from < to && (pages = mpgc_free_run(from, &first)) > 0 && first < to) {
        from = first + pages;
        if (from > to) from = to;
        size_t bytes = (from - first) * PAGE;
        if (madvise((void *)(FIRST + first * PAGE), bytes, MADV_DONTNEED) == 0)
            (void)mpgc_learn(FIRST + first * PAGE, bytes / WORD, GIVEN_BACK);
    }
    mpgc_restore_signals(&old);
    mpgc_unlock();
}
