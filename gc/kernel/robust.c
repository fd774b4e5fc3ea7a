// Robust mutexes that a thread has when it ends. The kernel would write into each that its owner has died, but makes no fault: where the
// page is closed it leaves off, and who waits for that mutex, or for a later one, waits for ever. So of those in the heap it is said here,
// as the C library itself does where the kernel can't; the others are left to the kernel.
#include "../front.h"
#include <linux/futex.h>
#include <pthread.h>
#include <stdatomic.h>
#include <sys/syscall.h>
#include <unistd.h>

enum { INHERITS = 1 };  // of a mutex that inherits priorities, in what leads to it: the kernel wakes who waits for that, also so

static __pthread_list_t *place_of(const void *next)
{
    return (__pthread_list_t *)(((uintptr_t)next & ~(uintptr_t)INHERITS) - offsetof(__pthread_list_t, __next));
}

static bool is_inside(const void *at) { return (uintptr_t)at - FIRST < MAX_PAGES * PAGE; }

static void say_that_its_owner_died(const void *next, long offset)
{
    _Atomic uint32_t *word = (void *)((uintptr_t)&place_of(next)->__next + (uintptr_t)offset);
    uint32_t seen = *word, own = (uint32_t)mpgc_call_kernel(SYS_gettid);
    mpgc_will_write((void *)word, sizeof *word);
    while ((seen & FUTEX_TID_MASK) == own) {
        if (!atomic_compare_exchange_strong(word, &seen, (seen & FUTEX_WAITERS) | FUTEX_OWNER_DIED)) continue;
        if (!((uintptr_t)next & INHERITS)) mpgc_call_kernel(SYS_futex, word, FUTEX_WAKE, 1, NULL, NULL, 0);
        break;
    }
    mpgc_wrote();
}

// This thread ends, and gives up none any more. Each leaves the list before another thread may take it, and put it into its own.
void mpgc_give_up_mutexes(void)
{
    struct robust_list_head *all = NULL;
    size_t bytes;
    if (mpgc_call_kernel(SYS_get_robust_list, 0, &all, &bytes) != 0 || !all || !all->list.next) return;
    __pthread_list_t *first = place_of(&all->list), *at = first;
    while (place_of(at->__next) != first) {
        const void *next = at->__next;
        __pthread_list_t *one = place_of(next);
        if (!is_inside(one)) {
            at = one;
            continue;
        }
        at->__next = one->__next;
        place_of(at->__next)->__prev = at;
        say_that_its_owner_died(next, all->futex_offset);
    }
}
