// Calls of the kernel that have no function in the C library, by its `syscall`: a program may also make locks of its own by futexes. Where what one is
// given points into the heap pages are opened first, as in syscalls.c. (Of a futex that isn't private the kernel asks that it may write
// it, also where it reads.) What is pointed to from there isn't looked at, but for blocks that are submitted. And those of them that libaio and liburing
// make by themselves. Only in libmpgc.so.
#include "next.h"
#include <errno.h>
#include <linux/aio_abi.h>
#include <poll.h>
#include <stdarg.h>
#include <sys/syscall.h>
#include <unistd.h>

// So many bytes as the next word says, if that may be a length; and a page, since most is told in less.
static void will_write(unsigned long at, unsigned long next)
{
    size_t most = MAX_PAGES * PAGE;
    if (at - FIRST < most) mpgc_will_write((void *)at, next > PAGE && next < most ? next : PAGE);
}

// The kernel writes to a block where it is submitted, and reads by then, but for what a disk is to write by itself.
static void will_submit(struct iocb *const *list, long count)
{
    struct span all = NO_SPAN;
    for (long k = 0; list && k < count; k++) {
        void *into = (void *)(uintptr_t)list[k]->aio_buf;
        mpgc_add_to(&all, list[k], sizeof *list[k]);
        if (list[k]->aio_lio_opcode == IOCB_CMD_PREAD) mpgc_add_to(&all, into, list[k]->aio_nbytes);
        if (list[k]->aio_lio_opcode == IOCB_CMD_PREADV) mpgc_add_parts_to(&all, into, list[k]->aio_nbytes);
    }
    mpgc_will_write_span(&all);
}

// Those by which the next word counts more than bytes, or an earlier one.
static void will_write_counted(long number, const unsigned long *words)
{
    if (number == SYS_poll || number == SYS_ppoll) will_write(words[0], words[1] * sizeof(struct pollfd));
    if (number == SYS_getgroups) will_write(words[1], words[0] * sizeof(gid_t));
    if (number == SYS_mincore) will_write(words[2], words[1] / PAGE + 1);
    if (number == SYS_move_pages) will_write(words[4], words[1] * sizeof(int));
}

static void will_tell(struct io_event *into, long count) { mpgc_will_write(into, count > 0 ? (size_t)count * sizeof *into : 0); }

// What is asked for by a ring (io_uring) stands where no call tells of it, and the kernel writes what came at any time: so no page is closed from
// its first one on.
static long with_ring(long answer)
{
    if (answer >= 0) mpgc_close_no_more();
    return answer;
}

// All six words are read, as the C library reads them, whether the program gave them or not.
__attribute__((no_sanitize("address"))) SHOWN long syscall(long number, ...)
{
    enum { WORDS = 6 };
    unsigned long words[WORDS + 1] = { 0 };
    va_list rest;
    va_start(rest, number);
    for (int k = 0; k < WORDS; k++) words[k] = va_arg(rest, unsigned long);
    va_end(rest);
    for (int k = 0; k < WORDS; k++) will_write(words[k], words[k + 1]);
    will_write_counted(number, words);
    if (number == SYS_io_submit) will_submit((void *)words[2], (long)words[1]);
    if (number == SYS_io_getevents || number == SYS_io_pgetevents) will_tell((void *)words[3], (long)words[2]);
    long answer = mpgc_call_kernel(number, words[0], words[1], words[2], words[3], words[4], words[5]);
    SAYS(number == SYS_io_uring_setup ? with_ring(answer) : answer);
}

// libaio's names are these calls, which answer an error's number. (A linker may leave libaio out, since they are here.)
#define CALLS(name, words, opens, ...) \
    SHOWN int name words \
    { \
        int kept = errno; \
        opens; \
        long answer = mpgc_call_kernel(SYS_##name, __VA_ARGS__); \
        if (answer < 0) answer = -errno; \
        errno = kept; \
        SAYS((int)answer); \
    }
CALLS(io_setup, (int most, aio_context_t *into), mpgc_will_write(into, sizeof *into), most, into)
CALLS(io_submit, (aio_context_t context, long count, struct iocb *list[]), will_submit(list, count), context, count, list)
CALLS(io_getevents, (aio_context_t context, long least, long count, struct io_event *into, struct timespec *limit), will_tell(into, count), context,
      least, count, into, limit)

// The same with signals that are blocked meanwhile, which the kernel is told of by where they are, and how long: but for those of masks.c.
SHOWN int io_pgetevents(aio_context_t context, long least, long count, struct io_event *into, struct timespec *limit, const sigset_t *blocked)
{
    sigset_t room;
    const struct { const sigset_t *at; size_t bytes; } signals = { &room, _NSIG / 8 };
    int kept = errno;
    if (blocked) {
        room = *blocked;
        sigdelset(&room, SIGSEGV);
        sigdelset(&room, mpgc_stopper);
    }
    will_tell(into, count);
    long answer = mpgc_call_kernel(SYS_io_pgetevents, context, least, count, into, limit, blocked ? &signals : NULL);
    if (answer < 0) answer = -errno;
    errno = kept;
    SAYS((int)answer);
}

// liburing's names by which a ring is made. It may be loaded for a part of the program alone.
UNSEEN __attribute__((noinline)) static uintptr_t of_liburing(atomic_uintptr_t *kept, const char *name)
{
    uintptr_t found = atomic_load_explicit(kept, memory_order_relaxed);
    if (found) return found;
    found = (uintptr_t)dlsym(RTLD_NEXT, name);
    void *alone = found ? NULL : dlopen("liburing.so.2", RTLD_LAZY | RTLD_NOLOAD);
    if (alone) found = (uintptr_t)dlsym(alone, name);
    if (!found) mpgc_stop("no liburing is there that makes a ring");
    atomic_store_explicit(kept, found, memory_order_relaxed);
    return found;
}
#define MAKES_RING(name, words, values, into) \
    SHOWN int name words \
    { \
        static atomic_uintptr_t kept_; \
        int(*const next) words = (int(*) words)of_liburing(&kept_, #name); \
        mpgc_will_write(into, PAGE); \
        SAYS((int)with_ring(next values)); \
    }
MAKES_RING(io_uring_queue_init, (unsigned most, void *ring, unsigned flags), (most, ring, flags), ring)
MAKES_RING(io_uring_queue_init_params, (unsigned most, void *ring, void *into), (most, ring, into), into)
MAKES_RING(io_uring_queue_init_mem, (unsigned most, void *ring, void *into, void *memory, size_t bytes), (most, ring, into, memory, bytes), into)
MAKES_RING(io_uring_setup, (unsigned most, void *into), (most, into), into)
