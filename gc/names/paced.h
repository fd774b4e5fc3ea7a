// What the names' files know of each other that say when to collect.
#ifndef MPGC_PACED_H
#define MPGC_PACED_H
#include "awaited.h"

// pacing.c. What is due to a request, or as the program asked for it; and to the collector's thread.
enum due { NOTHING, TIDYING, STEP, COLLECTION, WAKE };
HIDDEN enum due mpgc_due(bool is_asked);
HIDDEN enum due mpgc_due_to_collector(void);
HIDDEN unsigned mpgc_lag(void);
HIDDEN void mpgc_tidied(bool did_some);
HIDDEN void mpgc_grant(size_t pages);
HIDDEN bool mpgc_rest(void);
HIDDEN void mpgc_marks_begin(void);

// collections.c
HIDDEN bool mpgc_tidy(void);
HIDDEN bool mpgc_collect_unless(GC_stop_func stop);
HIDDEN void mpgc_start_cycle(void);

// steps.c
HIDDEN bool mpgc_is_in_cycle(void);
HIDDEN bool mpgc_roots_are_read(void);
HIDDEN bool mpgc_will_read_roots(void);
HIDDEN void mpgc_skip_sweeping(void);

// collector.c
HIDDEN bool mpgc_is_moment_over(void);

// told.c
HIDDEN GC_stop_func mpgc_stop_func(void);

#endif
