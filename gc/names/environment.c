// What the environment says, and how large the heap becomes.
#include "paced.h"
#include <stdio.h>
#include <stdlib.h>

// Bytes, with k, M or G behind them; or 0, where the variable isn't set or says something else.
static size_t bytes_of(const char *name)
{
    const char *text = getenv(name);
    char *end;
    if (!text) return 0;
    size_t number = strtoull(text, &end, 10);
    unsigned shift = *end == 'k' || *end == 'K' ? 10 : *end == 'm' || *end == 'M' ? 20 : *end == 'g' || *end == 'G' ? 30 : 0;
    if (end == text || end[shift != 0] != 0) {
        GC_get_warn_proc()("GC Warning: Bad size in the environment (%lu..) - ignoring it.\n", number);
        return 0;
    }
    return number > SIZE_MAX >> shift ? SIZE_MAX : number << shift;
}

static size_t pages_of(size_t bytes) { return bytes / PAGE + (bytes % PAGE != 0); }

static void print_figures(void)
{
    struct figures *all = &mpgc_figures;
    fprintf(stderr, "mpgc: %lu collections: %lu full, the longest %.0f us; %lu cycles, their longest end %.0f us, at most %zu pages left to it, "
            "%lu faults, %lu pages read again; %zu pages, %zu bytes asked for\n", (unsigned long)GC_gc_no, all->full, all->longest_full,
            all->cycles, all->longest_cycle_end, all->most_left, all->faults, all->retraces, GC_get_heap_size() / PAGE, GC_get_total_bytes());
    if (all->stops) fprintf(stderr, "mpgc: %lu stops of other threads, %.0f us each until the last one stood, at most %.0f us; "
                            "at most %.0f us until they went on\n", all->stops, all->stop_time / (double)all->stops, all->longest_stop,
                            all->longest_standing);
    if (all->rounds) fprintf(stderr, "mpgc: %lu rounds of marking by %d threads\n", all->rounds, GC_get_parallel() + 1);
}

// The heap has just been opened.
void mpgc_read_environment(void)
{
    size_t most = bytes_of("GC_MAXIMUM_HEAP_SIZE"), least = bytes_of("GC_INITIAL_HEAP_SIZE"), divisor = bytes_of("GC_FREE_SPACE_DIVISOR");
    if (most) GC_set_max_heap_size(most);
    if (least) GC_expand_hp(least);
    if (divisor) GC_free_space_divisor = divisor;
    mpgc_read_unmapping();
    mpgc_read_markers();
    if (getenv("GC_DONT_GC")) GC_dont_gc = 1;
    if (getenv("GC_FIND_LEAK")) GC_set_find_leak(1);
    if (GC_find_leak) mpgc_look_at_exit();
    if (getenv("GC_PRINT_STATS")) atexit(print_figures);
    mpgc_set_budget();
    if (getenv("GC_ENABLE_INCREMENTAL")) GC_enable_incremental();
    if (getenv("GC_COLLECTOR_THREAD")) GC_enable_collector_thread();
}

// Before the first request this says how large the heap may become; later how far it may grow. It never has fewer pages again, but free ones take no memory.
void GC_set_max_heap_size(GC_word bytes)
{
    size_t pages = pages_of(bytes);
    mpgc_figures.limit = pages == 0 || pages > MAX_PAGES ? MAX_PAGES : pages;
}

// What the program asks for beforehand is filled before the heap is collected.
int GC_expand_hp(size_t bytes)
{
    GC_init();
    GC_alloc_lock();
    bool answer = mpgc_grow(mpgc_pages() + pages_of(bytes));
    if (answer) mpgc_grant(mpgc_pages());
    GC_alloc_unlock();
    return answer;
}

void GC_deinit(void) { }
