// What a program sets, and is given back: variables of gc.h, and their calls. What the stack is, and calls of functions.
#include "locked.h"

// The variables that bdwgc lets a program read, and write before the first request; roots.c, requests.c, told.c, figures.c and parallel.c have others.
int GC_dont_gc;
int GC_dont_expand;
int GC_dont_precollect;
int GC_find_leak;
int GC_finalize_on_demand;
int GC_java_finalization = 1;
int GC_use_entire_heap;
int GC_full_freq = 19;
GC_word GC_free_space_divisor = 3;
GC_word GC_max_retries;
unsigned long GC_time_limit = GC_TIME_UNLIMITED;
GC_finalizer_notifier_proc GC_finalizer_notifier;

static GC_await_finalize_proc tell_finalize;
static int is_manual, prior_attempts = 1, rate = 10, is_executable;
static bool is_automatic_off;
static size_t least_bytes = 1;
static unsigned long nanoseconds;
static GC_word bytes_a_finalizer = 10000;

unsigned GC_get_version(void) { return GC_VERSION_MAJOR << 16 | GC_VERSION_MINOR << 8 | GC_VERSION_MICRO; }

void GC_set_free_space_divisor(GC_word divisor) { GC_free_space_divisor = divisor; }
GC_word GC_get_free_space_divisor(void) { return GC_free_space_divisor; }
void GC_set_disable_automatic_collection(int on)
{
    is_automatic_off = on != 0;
    mpgc_figures.next = 0;
}
int GC_get_disable_automatic_collection(void) { return is_automatic_off; }
// Under the lock, so that no step of the collector's thread is still under way when the first returns.
void GC_disable(void)
{
    GC_alloc_lock();
    GC_dont_gc++;
    GC_alloc_unlock();
}
void GC_enable(void)
{
    GC_alloc_lock();
    GC_dont_gc--;
    mpgc_figures.next = 0;
    GC_alloc_unlock();
}
int GC_is_disabled(void) { return GC_dont_gc != 0; }

void *GC_clear_stack(void *answer) { return answer; }
void GC_noop1(GC_word word) { (void)*(volatile GC_word *)&word; }

// Writes are seen by the page, and inner pointers always count.
void GC_change_stubborn(const void *object) { (void)object; }
void GC_end_stubborn_change(const void *object) { (void)object; }
void GC_ptr_store_and_dirty(void *at, const void *word) { *(const void **)at = word; }
void GC_register_displacement(size_t displacement) { (void)displacement; }
void GC_debug_register_displacement(size_t displacement) { (void)displacement; }

// Kept and given back.
void GC_set_finalize_on_demand(int on) { GC_finalize_on_demand = on; }
int GC_get_finalize_on_demand(void) { return GC_finalize_on_demand; }
void GC_set_java_finalization(int on) { GC_java_finalization = on; }
int GC_get_java_finalization(void) { return GC_java_finalization; }
LOCKED_SETTING(GC_finalizer_notifier_proc, GC_finalizer_notifier, GC_set_finalizer_notifier, GC_get_finalizer_notifier)
LOCKED_SETTING(GC_await_finalize_proc, tell_finalize, GC_set_await_finalize_proc, GC_get_await_finalize_proc)
void GC_set_dont_expand(int on) { GC_dont_expand = on; }
int GC_get_dont_expand(void) { return GC_dont_expand; }
void GC_set_dont_precollect(int on) { GC_dont_precollect = on; }
int GC_get_dont_precollect(void) { return GC_dont_precollect; }
void GC_set_full_freq(int often) { GC_full_freq = often; }
int GC_get_full_freq(void) { return GC_full_freq; }
void GC_set_max_retries(GC_word most) { GC_max_retries = most; }
GC_word GC_get_max_retries(void) { return GC_max_retries; }
void GC_set_max_prior_attempts(int most) { prior_attempts = most; }
int GC_get_max_prior_attempts(void) { return prior_attempts; }
void GC_set_rate(int pages) { rate = pages; }
int GC_get_rate(void) { return rate; }
void GC_set_time_limit(unsigned long ms) { GC_time_limit = ms; }
unsigned long GC_get_time_limit(void) { return GC_time_limit; }
void GC_set_time_limit_tv(struct GC_timeval_s limit)
{
    GC_time_limit = limit.tv_ms;
    nanoseconds = limit.tv_nsec;
}
struct GC_timeval_s GC_get_time_limit_tv(void) { return (struct GC_timeval_s){ GC_time_limit, nanoseconds }; }
void GC_set_allocd_bytes_per_finalizer(GC_word bytes) { bytes_a_finalizer = bytes; }
GC_word GC_get_allocd_bytes_per_finalizer(void) { return bytes_a_finalizer; }
void GC_set_min_bytes_allocd(size_t bytes) { least_bytes = bytes; }
size_t GC_get_min_bytes_allocd(void) { return least_bytes; }
void GC_set_manual_vdb_allowed(int on) { is_manual = on; }
int GC_get_manual_vdb_allowed(void) { return is_manual; }
void GC_set_handle_fork(int on) { (void)on; }
void GC_atfork_prepare(void) { }
void GC_atfork_parent(void) { }
void GC_atfork_child(void) { }

// What isn't here is said, and what asks for its absence is right.
void GC_set_pages_executable(int on)
{
    if (on) mpgc_stop("GC_set_pages_executable: this heap's pages can't be executed");
    is_executable = on;
}
int GC_get_pages_executable(void) { return is_executable; }
