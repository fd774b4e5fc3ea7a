// Pages to which the kernel writes for a thread: they are told and opened before, and stay so until it has. Trusted, not proved.
//
// What it owes the core: as protection.c. The kernel makes no fault, and a stop may come while it waits: so the pages of each such call are written
// down with its thread, and aren't closed meanwhile.
//
// No handler of the program comes while this is done: one that makes a step might clean a page that was told and isn't open yet, and one that jumps
// away, as out of a call that waits, would leave the lock taken. (What it leaves of the call itself goes with the next one.)
// Counted under the rest.
#include "layer.h"
#include <errno.h>
#include <string.h>

static void add_to_pins(const struct pages *pages, int count)
{
    for (size_t page = pages->from; page < pages->to; page++) mpgc.pins[page] = (uint16_t)(mpgc.pins[page] + count);
}

// From now on its pages are as others: open, told, and to be closed before they are read. The lock is held, and signals are blocked.
static void drop_pin(struct thread *thread, size_t number)
{
    struct pages pages = thread->pinned[number].pages;
    add_to_pins(&pages, -1);
    mpgc_lower_to(pages.from);
    for (size_t k = number + 1; k < thread->pins; k++) thread->pinned[k - 1] = thread->pinned[k];
    thread->pins--;
}

void mpgc_drop_pins(struct thread *thread)
{
    while (thread->pins > 0) drop_pin(thread, thread->pins - 1);
}

// In a child, whose other threads aren't there, and one of which may have been in the middle of writing its own down.
void mpgc_keep_own_pins(void)
{
    memset(mpgc.pins, 0, sizeof mpgc.pins);
    for (struct thread *one = mpgc.threads; one; one = one->next) {
        if (one != mpgc_self) one->pins = 0;
        for (size_t k = 0; k < one->pins; k++) add_to_pins(&one->pinned[k].pages, 1);
    }
}

static bool is_on_own_stack(const char *frame) { return frame >= mpgc_self->low && frame < mpgc_self->bottom; }

// A handler may make calls of its own in the middle of one: those end that lie no higher than the one with this frame, but for what that one's
// function has pushed since for a call, which is less than a signal's frame takes.
static bool is_over(const struct pin *pin, const char *frame)
{
    enum { PUSHED = 128 };
    bool is_own = is_on_own_stack(frame);
    return is_on_own_stack(pin->frame) == is_own ? pin->frame <= frame + PUSHED : is_own;
}
static bool has_over(const char *frame) { return mpgc_self->pins > 0 && is_over(&mpgc_self->pinned[mpgc_self->pins - 1], frame); }

// Calls that were left by a jump have pins still: where there are too many, the oldest that lies no higher than this call's makes room, which may be
// an early one of this call's, if a handler makes it.
static bool has_room(struct thread *self, const char *frame)
{
    for (size_t k = 0; self->pins == PINS && k < PINS; k++)
        if (is_over(&self->pinned[k], frame)) drop_pin(self, k);
    return self->pins < PINS;
}

// Where there are too many, it writes as it would without: it may find a page closed.
static void pin(size_t from, size_t to, const char *frame)
{
    struct thread *self = mpgc_self;
    if (!has_room(self, frame)) return;
    struct pin *one = &self->pinned[self->pins++];
    *one = (struct pin){ { from, to }, frame };
    add_to_pins(&one->pages, 1);
}

void mpgc_wrote(void)
{
    const char *frame = __builtin_frame_address(0);
    if (!mpgc_self || !has_over(frame)) return;
    int kept = errno;
    sigset_t old;
    struct loan loan;
    mpgc_block_handlers(&old);
    mpgc_lock_to_write(&loan);
    while (has_over(frame)) drop_pin(mpgc_self, mpgc_self->pins - 1);
    mpgc_unlock_to_write(&loan);
    mpgc_restore_signals(&old);
    errno = kept;
}

// Of pointer-free objects no page is closed, nor while it has one.
UNSEEN static bool are_pointer_free(size_t page, size_t end)
{
    while (page < end && mpgc.kind[page] == POINTER_FREE) page++;
    return page >= end;
}

// Someone who makes no fault, the kernel, will write these bytes.
void mpgc_will_write(const void *from, size_t bytes)
{
    uintptr_t start = (uintptr_t)from, last = FIRST + MAX_PAGES * PAGE, end = bytes > last - start ? last : start + bytes;
    if (start >= last || end <= FIRST || end == start) return;
    if (start < FIRST) start = FIRST;
    size_t first = mpgc_page_of(start), after = mpgc_page_of(end - 1) + 1, all = mpgc_pages();
    if (after > all) after = all;
    if (are_pointer_free(first, after)) return;
    sigset_t old;
    struct loan loan;
    mpgc_block_handlers(&old);
    mpgc_lock_to_write(&loan);
    for (size_t page = first; page < after; page++)
        if (mpgc.is_closed[page]) mpgc_let_write(page);
    if (mpgc_self) pin(first, after, __builtin_frame_address(0));
    mpgc_unlock_to_write(&loan);
    mpgc_restore_signals(&old);
}
