// How many threads mark, the one that collects among them: as the environment says, or the program before its first request; else as many as
// there are processors, as with bdwgc, but of those on which the process may run. As with bdwgc there are others only once the program has
// a second thread.
#include "../front.h"
#include <sched.h>
#include <stdlib.h>

enum { MOST = 8 };

int GC_parallel;  // so many beside the one that collects

static unsigned asked, wanted;

static unsigned processors(void)
{
    const char *text = getenv("GC_NPROCS");
    int said = text ? atoi(text) : 0;
    cpu_set_t set;
    if (said > 0) return (unsigned)said;
    return sched_getaffinity(0, sizeof set, &set) == 0 ? (unsigned)CPU_COUNT(&set) : 1;
}

// The heap has just been opened.
void mpgc_read_markers(void)
{
    const char *text = getenv("GC_MARKERS");
    int said = text ? atoi(text) : 0;
    wanted = text ? (said > 0 ? (unsigned)said : MOST) : asked ? asked : processors();
    if (wanted > MOST) wanted = MOST;
}

unsigned mpgc_wanted_markers(void) { return wanted; }

// So many were made.
void mpgc_count_markers(unsigned count) { GC_parallel = (int)count; }

// The program has a second thread, or may have.
void mpgc_will_be_threaded(void) { GC_parallel = (int)wanted - 1; }

UNSEEN int GC_get_parallel(void) { return GC_parallel; }
void GC_set_markers_count(unsigned count) { asked = count; }
void GC_start_mark_threads(void) { GC_allow_register_threads(); }
