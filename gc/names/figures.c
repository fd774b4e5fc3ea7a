// Figures, in bytes, and what a collection took.
#include "../front.h"
#include <string.h>
#include <time.h>

struct figures mpgc_figures = { .limit = MAX_PAGES };
GC_word GC_gc_no;
GC_word GC_non_gc_bytes;

#ifndef MPGC_CLOCK
#define MPGC_CLOCK CLOCK_MONOTONIC  // bench/collector takes the thread's own time
#endif
double mpgc_now(void)
{
    struct timespec time;
    clock_gettime(MPGC_CLOCK, &time);
    return (double)time.tv_sec * 1e6 + (double)time.tv_nsec / 1e3;
}

void mpgc_count_collection(bool is_full, double start)
{
    struct figures *all = &mpgc_figures;
    double took = mpgc_now() - start, *longest = is_full ? &all->longest_full : &all->longest_cycle_end;
    if (took > *longest) *longest = took;
    if (is_full) all->full_time += took;
    ++*(is_full ? &all->full : &all->cycles);
}

void mpgc_count_stop(double took)
{
    mpgc_figures.stops++;
    mpgc_figures.stop_time += took;
    if (took > mpgc_figures.longest_stop) mpgc_figures.longest_stop = took;
}

void mpgc_count_standing(double took)
{
    if (took > mpgc_figures.longest_standing) mpgc_figures.longest_standing = took;
}

// What one of these reads without the lock may be another one's from before or behind a change, as with bdwgc.
UNSEEN GC_word GC_get_gc_no(void) { return GC_gc_no; }
size_t GC_get_unmapped_bytes(void) { return mpgc_pages_of(GIVEN_BACK) * PAGE; }
size_t GC_get_heap_size(void) { return mpgc_pages() * PAGE - GC_get_unmapped_bytes(); }
// Pages on which an object lies, or one that is still to be swept.
size_t GC_get_memory_use(void) { return mpgc_used_pages() * PAGE; }
size_t GC_get_free_bytes(void)
{
    size_t in_use = GC_get_memory_use();
    return in_use < GC_get_heap_size() ? GC_get_heap_size() - in_use : 0;
}
UNSEEN size_t GC_get_bytes_since_gc(void)
{
    size_t left = mpgc_words_in_runs(), asked = mpgc_figures.since + mpgc_words_taken_back(false);
    return asked > left ? (asked - left) * WORD : 0;
}
UNSEEN size_t GC_get_expl_freed_bytes_since_gc(void) { return (mpgc_figures.freed + mpgc_words_taken_back(false)) * WORD; }
UNSEEN size_t GC_get_total_bytes(void) { return mpgc_figures.total * WORD + GC_get_bytes_since_gc(); }
size_t GC_get_obtained_from_os_bytes(void) { return mpgc_pages() * PAGE; }
UNSEEN GC_word GC_get_non_gc_bytes(void) { return GC_non_gc_bytes; }
void GC_set_non_gc_bytes(GC_word bytes) { GC_non_gc_bytes = bytes; }

// These two are of one moment.
void GC_get_heap_usage_safe(GC_word *heap, GC_word *free_bytes, GC_word *unmapped, GC_word *since, GC_word *total)
{
    GC_init();
    GC_alloc_lock();
    if (heap) *heap = GC_get_heap_size();
    if (free_bytes) *free_bytes = GC_get_free_bytes();
    if (unmapped) *unmapped = GC_get_unmapped_bytes();
    if (since) *since = GC_get_bytes_since_gc();
    if (total) *total = GC_get_total_bytes();
    GC_alloc_unlock();
}
size_t GC_get_prof_stats(struct GC_prof_stats_s *stats, size_t bytes)
{
    GC_init();
    GC_alloc_lock();
    size_t known = GC_get_prof_stats_unsafe(stats, bytes);
    GC_alloc_unlock();
    return known;
}
size_t GC_get_prof_stats_unsafe(struct GC_prof_stats_s *stats, size_t bytes)
{
    struct GC_prof_stats_s all = {
        .heapsize_full = mpgc_pages() * PAGE, .free_bytes_full = GC_get_free_bytes() + GC_get_unmapped_bytes(),
        .unmapped_bytes = GC_get_unmapped_bytes(),
        .markers_m1 = (GC_word)GC_get_parallel(), .bytes_allocd_since_gc = GC_get_bytes_since_gc(), .allocd_bytes_before_gc = GC_get_total_bytes() - GC_get_bytes_since_gc(),
        .non_gc_bytes = GC_get_non_gc_bytes(), .gc_no = GC_get_gc_no(), .expl_freed_bytes_since_gc = GC_get_expl_freed_bytes_since_gc(),
        .obtained_from_os_bytes = GC_get_obtained_from_os_bytes(),
    };
    size_t known = bytes < sizeof all ? bytes : sizeof all;
    memcpy(stats, &all, known);
    memset((char *)stats + known, 0xff, bytes - known);
    return known;
}
void GC_start_performance_measurement(void) { mpgc_figures.full_time = 0; }
unsigned long GC_get_full_gc_total_time(void) { return (unsigned long)(mpgc_figures.full_time / 1000); }
