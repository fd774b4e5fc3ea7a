// The heap is opened by the first call, and the layer stops with a sentence. Trusted, not proved.
//
// What it owes the core, of mpheap.h:
//
//   "`heap` points to an mpheap that was opened and has not been closed since"   mpheap_open_mapped_with, clause IsOpenedAs:
//                                                            opened once, here, never closed, never copied
//   its words lie where its addresses say                    mpheap_open_mapped maps them there, or the program stops
// Counted under the rest.
#include "layer.h"
#include <stdlib.h>
#include <sys/mman.h>

struct layer mpgc;
static bool is_open;

void mpgc_stop(const char *sentence)
{
    GC_abort_func tell = GC_get_abort_func();
    if (tell) tell(sentence);
    abort();
}

// Whether the process may have half as many addresses besides: for what the program asks others for, and its threads' stacks.
static bool leaves_some(size_t pages)
{
    size_t bytes = pages * PAGE / 2 * 3;
    void *at = mmap(NULL, bytes, PROT_READ | PROT_WRITE, MAP_PRIVATE | MAP_ANONYMOUS | MAP_NORESERVE, -1, 0);
    return at != MAP_FAILED && munmap(at, bytes) == 0;
}

// As many pages as there may be, and seven eighths of them again where that is refused: by a limit of the process, or since the range is taken.
// Answers them, or 0.
static size_t open_core(void)
{
    enum { LEAST = 4096 };
    size_t pages = MAX_PAGES;
    while (pages >= LEAST && !(leaves_some(pages) && mpheap_open_mapped_with((uint32_t)pages, pages * (PAGE / WORD), &mpgc.heap) == MPHEAP_OK))
        pages = pages / 8 * 7 / BLOCK * BLOCK;
    return pages >= LEAST ? pages : 0;
}

static void open_heap(void)
{
    is_open = true;
    mpgc_know_first();
    mpgc.all = open_core();
    if (mpgc.all == 0) mpgc_stop("there is no memory at 0x550000000000, where the heap's addresses begin");
    if (mpheap_attach(&mpgc.heap, &mpgc.slot) != MPHEAP_OK) mpgc_stop("a new heap has no slot");
    if (mpgc_figures.limit > mpgc.all) mpgc_figures.limit = mpgc.all;
    mpgc_make_spare();
}

// No handler of the program runs before the heap is there. One that came just before has opened it.
void mpgc_open(void)
{
    sigset_t old;
    if (is_open) {
        mpgc_know_this(NULL);
        return;
    }
    mpgc_block_signals(&old);
    bool was_opened = is_open;
    if (!was_opened) open_heap();
    mpgc_restore_signals(&old);
    if (!was_opened) mpgc_read_environment();
}

void GC_init(void) { mpgc_enter(); }

int GC_is_init_called(void) { return is_open; }
