// Calls of the C library by which the kernel writes into the program's memory, as in syscalls.c: queues, folders, and what is told of threads,
// users, open files and clocks. And one by which it takes memory. Only in libmpgc.so.
#include "next.h"
#include <dirent.h>
#include <fcntl.h>
#include <pthread.h>
#include <sched.h>
#include <stdarg.h>
#include <sys/eventfd.h>
#include <sys/mman.h>
#include <sys/msg.h>
#include <sys/resource.h>
#include <sys/timex.h>
#include <unistd.h>

OPENS(int, eventfd_read, (int file, eventfd_t *into), (file, into), into, sizeof *into)
OPENS(ssize_t, getdents64, (int folder, void *into, size_t bytes), (folder, into, bytes), into, bytes)
OPENS(ssize_t, msgrcv, (int queue, void *into, size_t bytes, long kind, int flags), (queue, into, bytes, kind, flags), into, bytes + sizeof kind)
OPENS(int, pthread_getname_np, (pthread_t thread, char *into, size_t bytes), (thread, into, bytes), into, bytes)
OPENS(int, pthread_getaffinity_np, (pthread_t thread, size_t bytes, cpu_set_t *into), (thread, bytes, into), into, bytes)
OPENS(int, sched_getparam, (pid_t process, struct sched_param *into), (process, into), into, sizeof *into)
OPENS(int, sched_rr_get_interval, (pid_t process, struct timespec *into), (process, into), into, sizeof *into)
OPENS(int, adjtimex, (struct timex *into), (into), into, sizeof *into)
OPENS(int, ntp_adjtime, (struct timex *into), (into), into, sizeof *into)
OPENS(int, clock_adjtime, (clockid_t clock, struct timex *into), (clock, into), into, sizeof *into)
OPENS(int, mincore, (void *from, size_t bytes, unsigned char *into), (from, bytes, into), into, (bytes + PAGE - 1) / PAGE)

#define LISTS_FOLDER(end) \
    SHOWN ssize_t getdirentries##end(int folder, char *restrict into, size_t bytes, __off##end##_t *restrict from) \
    { \
        NEXT(ssize_t, getdirentries##end, (int, char *, size_t, __off##end##_t *)); \
        mpgc_will_write(into, bytes); \
        SAYS(next(folder, into, bytes, from)); \
    }
LISTS_FOLDER()
LISTS_FOLDER(64)

// Where the limit of this process's data is made lower, closed pages wouldn't be opened any more.
static void will_limit(pid_t process, int which, const struct rlimit64 *next_one)
{
    NEXT(int, getrlimit64, (__rlimit_resource_t, struct rlimit64 *));
    struct rlimit64 now;
    bool is_ours = which == RLIMIT_DATA && (process == 0 || process == getpid());
    if (is_ours && next_one && next(RLIMIT_DATA, &now) == 0 && next_one->rlim_cur < now.rlim_cur) mpgc_close_no_more();
}
_Static_assert(sizeof(struct rlimit) == sizeof(struct rlimit64), "two limits are one");

#define LIMITS(end) \
    SHOWN int setrlimit##end(__rlimit_resource_t which, const struct rlimit##end *next_one) \
    { \
        NEXT(int, setrlimit##end, (__rlimit_resource_t, const struct rlimit##end *)); \
        will_limit(0, (int)which, (const struct rlimit64 *)next_one); \
        return next(which, next_one); \
    } \
    SHOWN int prlimit##end(pid_t process, __rlimit_resource_t which, const struct rlimit##end *next_one, struct rlimit##end *old) \
    { \
        NEXT(int, prlimit##end, (pid_t, __rlimit_resource_t, const struct rlimit##end *, struct rlimit##end *)); \
        will_limit(process, (int)which, (const struct rlimit64 *)next_one); \
        mpgc_will_write(old, sizeof *old); \
        SAYS(next(process, which, next_one, old)); \
    }
LIMITS()
LIMITS(64)

#define TELLS_THREE(name, id) \
    SHOWN int name(id *real, id *effective, id *saved) \
    { \
        NEXT(int, name, (id *, id *, id *)); \
        mpgc_will_write(real, sizeof *real); \
        mpgc_will_write(effective, sizeof *effective); \
        mpgc_will_write(saved, sizeof *saved); \
        SAYS(next(real, effective, saved)); \
    }
TELLS_THREE(getresuid, uid_t)
TELLS_THREE(getresgid, gid_t)

// Of a file: where it is locked, who owns it.
#define CONTROLS(name) \
    SHOWN int name(int file, int command, ...) \
    { \
        NEXT(int, name, (int, int, void *)); \
        va_list rest; \
        va_start(rest, command); \
        void *into = va_arg(rest, void *); \
        va_end(rest); \
        if (GC_is_heap_ptr(into)) mpgc_will_write(into, sizeof(struct flock)); \
        SAYS(next(file, command, into)); \
    }
CONTROLS(fcntl)
CONTROLS(fcntl64)

// A process is made, whose number is told, or a file for it; and its own copy of the memory may be told too. The words are there where the flags say so.
SHOWN int clone(int (*start)(void *), void *stack, int flags, void *data, ...)
{
    NEXT(int, clone, (int (*)(void *), void *, int, void *, pid_t *, void *, pid_t *));
    va_list rest;
    va_start(rest, data);
    pid_t *number = va_arg(rest, pid_t *);
    void *local = va_arg(rest, void *);
    pid_t *in_child = va_arg(rest, pid_t *);
    va_end(rest);
    if (flags & (CLONE_PARENT_SETTID | CLONE_PIDFD)) mpgc_will_write(number, sizeof *number);
    if (flags & CLONE_CHILD_SETTID) mpgc_will_write(in_child, sizeof *in_child);
    SAYS(next(start, stack, flags, data, number, local, in_child));
}

// Memory is locked as it is touched: the addresses of the largest heap would all take memory at once, and more than most machines have.
SHOWN int mlockall(int flags)
{
    NEXT(int, mlockall, (int));
    return next(flags & (MCL_CURRENT | MCL_FUTURE) ? flags | MCL_ONFAULT : flags);
}
