// What a program asks of threads that needs no more than gc/threads.c answers.
#include "locked.h"
#include "paced.h"
#include <pthread.h>

int GC_get_stack_base(struct GC_stack_base *base)
{
    const char *low, *bottom;
    mpgc_find_stack(&low, &bottom);
    base->mem_base = (void *)(uintptr_t)bottom;
    return GC_SUCCESS;
}

void *GC_get_my_stackbottom(struct GC_stack_base *base)
{
    base->mem_base = mpgc_stack_bottom();
    return mpgc_this_thread();
}

__attribute__((noinline)) void *GC_call_with_stack_base(GC_stack_base_func function, void *data)
{
    struct GC_stack_base base = { __builtin_frame_address(0) };
    void *answer = function(&base, data);
    __asm__ volatile("" : : "r"(&base) : "memory");  // no call in place of a return: the frame has to stay
    return answer;
}

SHOWN int GC_pthread_cancel(pthread_t thread);
int GC_pthread_cancel(pthread_t thread) { return pthread_cancel(thread); }
SHOWN int GC_pthread_sigmask(int how, const sigset_t *set, sigset_t *old);
int GC_pthread_sigmask(int how, const sigset_t *set, sigset_t *old) { return pthread_sigmask(how, set, old); }

// The signal by which threads are stopped, and that by which they go on with bdwgc, and here don't.
SHOWN int GC_get_suspend_signal(void);
int GC_get_suspend_signal(void) { return mpgc_stopper; }
static int restarter = SIGXCPU;
SHOWN int GC_get_thr_restart_signal(void);
int GC_get_thr_restart_signal(void) { return restarter; }
SHOWN void GC_set_thr_restart_signal(int number);
void GC_set_thr_restart_signal(int number)
{
    if (!GC_is_init_called()) restarter = number;
}

static GC_on_thread_event_proc tell_of_thread;
LOCKED_SETTING(GC_on_thread_event_proc, tell_of_thread, GC_set_on_thread_event, GC_get_on_thread_event)
void mpgc_tell_of_thread(GC_EventType event, pthread_t thread)
{
    if (tell_of_thread) tell_of_thread(event, (void *)thread);
}
