// Where the stacks of threads lie, and what each thread has: it is read when roots are. Trusted, not proved.
//
// What it owes the core: as roots.c, each word by which the program may still reach an object is a root at a collection's end.
// Counted under threads.
#include "layer.h"
#include <errno.h>
#include <sys/syscall.h>
#include <unistd.h>

// The first thread's is in a variable that the program may read, and write.
static char *bottom_of(const struct thread *thread)
{
    return thread == &mpgc.first ? GC_stackbottom : (char *)(uintptr_t)thread->bottom;
}

// The lowest place of a stack that is there: where the thread was on it isn't known. What isn't mapped is left alone, since it would be from
// then on; and a stack of the program's own may end with a page that can't be read.
static const char *lowest(const char *low, const char *bottom)
{
    char *at = (char *)((uintptr_t)bottom & ~(PAGE - 1));
    unsigned char answer;
    int kept = errno;
    while (at > low && mpgc_call_kernel(SYS_mincore, at - PAGE, PAGE, &answer) == 0 && mpgc_can_be_read(at - WORD)) at -= PAGE;
    errno = kept;
    return at > low ? at : low;  // a stack that the program gave may begin in the middle of a page
}

// The process's first stack may have grown past where it might end when the thread was looked at, since the program has allowed it more: then all
// is mapped that lies between.
static bool is_on_own_stack(struct thread *one, const char *top)
{
    bool may_grow = top < one->low && one->number == (uint32_t)getpid();
    if (may_grow && lowest(top, one->bottom) <= top) one->low = top;
    return top >= one->low && top < one->bottom;
}

static bool has_own_stacks;
bool mpgc_has_own_stacks(void) { return has_own_stacks; }

// A program of one thread that moves between stacks says so by that variable alone, or by GC_set_stackbottom, a moment before it moves or
// behind it: so where the first thread was stopped it is certain only on the stack that it began with.
bool mpgc_first_is_at_home(void)
{
    struct thread *first = &mpgc.first;
    const char *top = first->alt_top ? first->under : first->top;
    if (has_own_stacks) return false;
    if (first == mpgc_self || first->state == ENDED) return true;
    return GC_stackbottom == first->bottom && (!top || !first->low || is_on_own_stack(first, top));
}

char *mpgc_stack_bottom(void)
{
    mpgc_enter();
    return bottom_of(mpgc_self);
}

// The thread is this one, or one that is stopped.
void GC_set_stackbottom(void *thread, const struct GC_stack_base *base)
{
    struct thread *which = thread ? thread : mpgc_self;
    has_own_stacks = true;
    if (!which || which == &mpgc.first) GC_stackbottom = base->mem_base;
    if (which) which->bottom = base->mem_base;
    if (which) which->low = NULL;
}

static void scan_stack(struct thread *one, void (*scan)(const char *from, const char *to))
{
    const char *top = one->top, *bottom = bottom_of(one);
    if (one->alt_top) {
        scan(top, one->alt_top);
        top = one->under ? one->under : lowest(one->low, bottom);
    }
    bool is_own = bottom == one->bottom && one->low;
    if (top >= bottom || (is_own && !is_on_own_stack(one, top)))
        mpgc_stop("a collection on another stack than the thread's own: see GC_set_stackbottom");
    scan(top, bottom);
}

void mpgc_scan_threads(void (*scan)(const char *from, const char *to), void (*push)(uint64_t word))
{
    for (struct thread *one = mpgc.threads; one; one = one->next) {
        push((uintptr_t)one->data);
        if (one->state == STARTING || one->state == ENDED) continue;
        mpgc_push_runs(one, push);
        scan_stack(one, scan);
        mpgc_scan_room_of_locals(one, scan);
        mpgc_scan_keys(one, scan);
    }
}
