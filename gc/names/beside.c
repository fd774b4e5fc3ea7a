// Whether the collector has a thread of its own, which marks while the program's threads run. (collector.c is the thread; what is due to
// it is said in pacing.c.)
#include "../front.h"

static bool is_on;

bool mpgc_is_beside(void) { return is_on && !mpgc_holds_threads_back(); }

// From now on requests make the steps.
void mpgc_leave_beside(void) { is_on = false; }

void GC_enable_collector_thread(void)
{
    GC_enable_incremental();
    is_on = GC_is_incremental_mode();
}
