// What the program is told, and by which functions of its own.
#include "locked.h"
#include "paced.h"
#include <errno.h>
#include <stdio.h>
#include <string.h>
#include <unistd.h>

static void *answer_nothing(size_t bytes)
{
    (void)bytes;
    return NULL;
}
GC_oom_func GC_oom_fn = answer_nothing;
GC_on_heap_resize_proc GC_on_heap_resize;

static void print_warning(char *format, GC_word number)
{
    char text[200];
#pragma GCC diagnostic push
#pragma GCC diagnostic ignored "-Wformat-nonliteral"
    int length = snprintf(text, sizeof text, format, number);
#pragma GCC diagnostic pop
    if (length > 0) (void)!write(2, text, strlen(text));
}

static void print_message(const char *message)
{
    if (!message) return;
    (void)!write(2, "libmpgc: ", 9);
    (void)!write(2, message, strlen(message));
    (void)!write(2, "\n", 1);
}

static int never(void) { return 0; }

static GC_warn_proc warn = print_warning;
SHOWN GC_abort_func GC_on_abort = print_message;
static GC_stop_func stop_by_default = never;
static GC_on_collection_event_proc tell_event;
static GC_start_callback_proc tell_start;

void mpgc_tell_event(GC_EventType event)
{
    GC_on_collection_event_proc tell = tell_event;
    if (tell) tell(event);
}

static void tell_events(const GC_EventType *events, size_t count)
{
    for (size_t k = 0; k < count; k++) mpgc_tell_event(events[k]);
}

void mpgc_tell_start(void)
{
    mpgc_age_free_pages();
    mpgc_ask_toggled();
    static const GC_EventType first[] = { GC_EVENT_START, GC_EVENT_MARK_START };
    tell_events(first, 2);
    if (tell_start) tell_start();
}

// A program whose threads move between stacks holds them back from its function at a collection's start until its function of other roots has
// said where they are. It may wait for a thread there, which mustn't wait for the collector meanwhile, as at a closed page: so such a program
// has full collections alone. Whether it is one is known from the first on.
bool mpgc_holds_threads_back(void) { return tell_start && (GC_gc_no == 0 || mpgc_has_own_stacks()); }

void mpgc_tell_end(void)
{
    static const GC_EventType last[] = { GC_EVENT_MARK_END, GC_EVENT_RECLAIM_START, GC_EVENT_RECLAIM_END, GC_EVENT_END };
    mpgc_call_disclaimed();
    tell_events(last, 4);
}

// The program's function may jump out of this: so it isn't called under the lock, by a registration, which asks once more without.
void *mpgc_out_of_memory(size_t bytes)
{
    GC_oom_func answer = GC_get_oom_fn();
    GC_get_warn_proc()("GC Warning: Out of Memory! Heap size: %lu MiB. Returning NULL!\n", GC_get_heap_size() >> 20);
    errno = ENOMEM;
    return answer && !mpgc_has_lock() ? answer(bytes) : NULL;
}

// The function that may break off a collection, if there is one.
GC_stop_func mpgc_stop_func(void)
{
    GC_stop_func stop = GC_get_stop_func();
    return stop == never ? NULL : stop;
}

LOCKED_SETTING(GC_oom_func, GC_oom_fn, GC_set_oom_fn, GC_get_oom_fn)
LOCKED_SETTING(GC_warn_proc, warn, GC_set_warn_proc, GC_get_warn_proc)
LOCKED_SETTING(GC_on_heap_resize_proc, GC_on_heap_resize, GC_set_on_heap_resize, GC_get_on_heap_resize)
LOCKED_SETTING(GC_on_collection_event_proc, tell_event, GC_set_on_collection_event, GC_get_on_collection_event)
LOCKED_SETTING(GC_start_callback_proc, tell_start, GC_set_start_callback, GC_get_start_callback)
LOCKED_SETTING(GC_stop_func, stop_by_default, GC_set_stop_func, GC_get_stop_func)
void GC_ignore_warn_proc(char *format, GC_word number)
{
    (void)format;
    (void)number;
}
// Who stops with a sentence may find the lock another's that waits for it: so this one is read without.
void GC_set_abort_func(GC_abort_func tell)
{
    GC_alloc_lock();
    GC_on_abort = tell;
    GC_alloc_unlock();
}
UNSEEN GC_abort_func GC_get_abort_func(void) { return GC_on_abort; }
void GC_abort_on_oom(void) { mpgc_stop("insufficient memory for the allocation"); }
void GC_set_log_fd(int file) { (void)file; }
