// Calls of the C library by which the kernel writes into the program's memory, as in syscalls.c: queues of messages, semaphores and memory that
// processes share, and what is told of a process. Only in libmpgc.so.
#include "next.h"
#include <mqueue.h>
#include <stdarg.h>
#include <sys/msg.h>
#include <sys/prctl.h>
#include <sys/ptrace.h>
#include <sys/sem.h>
#include <sys/shm.h>

#define RECEIVES(name, words, values) \
    SHOWN ssize_t name words \
    { \
        NEXT(ssize_t, name, words); \
        mpgc_will_write(into, bytes); \
        mpgc_will_write(priority, sizeof *priority); \
        SAYS(next values); \
    }
RECEIVES(mq_receive, (mqd_t queue, char *into, size_t bytes, unsigned *priority), (queue, into, bytes, priority))
RECEIVES(mq_timedreceive,
         (mqd_t queue, char *restrict into, size_t bytes, unsigned *restrict priority, const struct timespec *restrict until),
         (queue, into, bytes, priority, until))
OPENS(int, mq_getattr, (mqd_t queue, struct mq_attr *into), (queue, into), into, sizeof *into)
OPENS(int, mq_setattr, (mqd_t queue, const struct mq_attr *restrict next_one, struct mq_attr *restrict old), (queue, next_one, old), old,
      sizeof *old)

OPENS(int, msgctl, (int queue, int command, struct msqid_ds *into), (queue, command, into), into, sizeof *into)
OPENS(int, shmctl, (int shared, int command, struct shmid_ds *into), (shared, command, into), into, sizeof *into)

// Of a pointer that may stand there: so many bytes, or as far as its object goes.
static void will_write_as_far(void *into, size_t most)
{
    uintptr_t base;
    size_t words;
    if (!GC_is_heap_ptr(into) || !mpgc_find((uintptr_t)into, &base, &words)) return;
    size_t left = base + words * WORD - (uintptr_t)into;
    mpgc_will_write(into, left < most ? left : most);
}

// Of all semaphores of a set it is told by two bytes for each.
SHOWN int semctl(int set, int number, int command, ...)
{
    enum { MOST = 1 << 16 };
    NEXT(int, semctl, (int, int, int, void *));
    va_list rest;
    va_start(rest, command);
    void *into = va_arg(rest, void *);
    va_end(rest);
    will_write_as_far(into, MOST);
    SAYS(next(set, number, command, into));
}

// Most tell behind the first word, and some behind a later one: what the program was started with (PR_GET_AUXV) is the longest.
SHOWN int prctl(int option, ...)
{
    enum { MOST = 1024, WORDS = 4 };
    NEXT(int, prctl, (int, unsigned long, unsigned long, unsigned long, unsigned long));
    unsigned long words[WORDS];
    va_list rest;
    va_start(rest, option);
    for (int k = 0; k < WORDS; k++) words[k] = va_arg(rest, unsigned long);
    va_end(rest);
    for (int k = 0; k < WORDS; k++) will_write_as_far((void *)words[k], MOST);
    SAYS(next(option, words[0], words[1], words[2], words[3]));
}

// Of another process, whose registers are most of what is told at once. A set of them comes to where the program says there.
SHOWN long ptrace(enum __ptrace_request request, ...)
{
    NEXT(long, ptrace, (enum __ptrace_request, pid_t, void *, void *));
    va_list rest;
    va_start(rest, request);
    pid_t process = va_arg(rest, pid_t);
    void *address = va_arg(rest, void *), *into = va_arg(rest, void *);
    va_end(rest);
    const struct iovec *set = request == PTRACE_GETREGSET ? into : NULL;
    will_write_as_far(into, PAGE);
    if (set) mpgc_will_write(set->iov_base, set->iov_len);
    SAYS(next(request, process, address, into));
}

// What a process may do: as it is told by which version, in up to three words.
SHOWN int capget(void *version, void *into);
SHOWN int capget(void *version, void *into)
{
    enum { MOST = 3 * WORD };
    NEXT(int, capget, (void *, void *));
    will_write_as_far(version, WORD);
    will_write_as_far(into, MOST);
    SAYS(next(version, into));
}

// Of this thread's registers that hold addresses, and of the segments that it has made.
SHOWN int arch_prctl(int option, unsigned long *into);
OPENS(int, arch_prctl, (int option, unsigned long *into), (option, into), into, sizeof *into)
SHOWN int modify_ldt(int what, void *into, unsigned long bytes);
OPENS(int, modify_ldt, (int what, void *into, unsigned long bytes), (what, into, bytes), into, bytes)
