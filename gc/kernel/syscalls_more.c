// Calls of the C library by which the kernel writes into the program's memory: sockets, waiting, times, signals, devices. As syscalls.c
// has those of files. Only in libmpgc.so. Those that wait with other signals blocked don't block faults (masks.c).
#include "next.h"
#include <linux/filter.h>
#include <net/if.h>
#include <poll.h>
#include <sched.h>
#include <spawn.h>
#include <stdarg.h>
#include <sys/epoll.h>
#include <sys/ioctl.h>
#include <sys/random.h>
#include <sys/resource.h>
#include <sys/select.h>
#include <sys/socket.h>
#include <sys/sysinfo.h>
#include <sys/time.h>
#include <sys/timerfd.h>
#include <sys/times.h>
#include <sys/uio.h>
#include <sys/utsname.h>
#include <sys/wait.h>
#include <time.h>
#include <unistd.h>

// Sockets.
OPENS(ssize_t, recv, (int file, void *into, size_t bytes, int flags), (file, into, bytes, flags), into, bytes)
OPENS(int, socketpair, (int domain, int type, int protocol, int ends[2]), (domain, type, protocol, ends), ends, 2 * sizeof *ends)

// A length that is read and written, and so many bytes.
static void will_write_counted(void *into, socklen_t *length)
{
    if (!length) return;
    mpgc_will_write(into, *length);
    mpgc_will_write(length, sizeof *length);
}

SHOWN ssize_t recvfrom(int file, void *into, size_t bytes, int flags, __SOCKADDR_ARG from, socklen_t *length)
{
    NEXT(ssize_t, recvfrom, (int, void *, size_t, int, __SOCKADDR_ARG, socklen_t *));
    mpgc_will_write(into, bytes);
    will_write_counted(from.__sockaddr__, length);
    SAYS(next(file, into, bytes, flags, from, length));
}

static void will_write_message(struct msghdr *message)
{
    mpgc_will_write(message, sizeof *message);
    mpgc_will_write(message->msg_name, message->msg_namelen);
    mpgc_will_write(message->msg_control, message->msg_controllen);
    mpgc_will_write_parts(message->msg_iov, message->msg_iovlen);
}

SHOWN ssize_t recvmsg(int file, struct msghdr *message, int flags)
{
    NEXT(ssize_t, recvmsg, (int, struct msghdr *, int));
    if (message) will_write_message(message);
    SAYS(next(file, message, flags));
}

SHOWN int recvmmsg(int file, struct mmsghdr *messages, unsigned count, int flags, struct timespec *timeout)
{
    NEXT(int, recvmmsg, (int, struct mmsghdr *, unsigned, int, struct timespec *));
    struct span all = NO_SPAN;
    mpgc_add_to(&all, messages, count * sizeof *messages);
    mpgc_add_to(&all, timeout, sizeof *timeout);
    for (unsigned k = 0; messages && k < count; k++) {
        const struct msghdr *one = &messages[k].msg_hdr;
        mpgc_add_to(&all, one->msg_name, one->msg_namelen);
        mpgc_add_to(&all, one->msg_control, one->msg_controllen);
        mpgc_add_parts_to(&all, one->msg_iov, one->msg_iovlen);
    }
    mpgc_will_write_span(&all);
    SAYS(next(file, messages, count, flags, timeout));
}

// Those that tell an address.
#define TELLS_ADDRESS(name) \
    SHOWN int name(int file, __SOCKADDR_ARG address, socklen_t *restrict length) \
    { \
        NEXT(int, name, (int, __SOCKADDR_ARG, socklen_t *)); \
        will_write_counted(address.__sockaddr__, length); \
        SAYS(next(file, address, length)); \
    }
TELLS_ADDRESS(accept)
TELLS_ADDRESS(getsockname)
TELLS_ADDRESS(getpeername)

SHOWN int accept4(int file, __SOCKADDR_ARG address, socklen_t *restrict length, int flags)
{
    NEXT(int, accept4, (int, __SOCKADDR_ARG, socklen_t *, int));
    will_write_counted(address.__sockaddr__, length);
    SAYS(next(file, address, length, flags));
}

// Of a filter the length counts instructions.
SHOWN int getsockopt(int file, int level, int name, void *restrict into, socklen_t *restrict length)
{
    NEXT(int, getsockopt, (int, int, int, void *, socklen_t *));
    will_write_counted(into, length);
    if (length && level == SOL_SOCKET && name == SO_GET_FILTER) mpgc_will_write(into, *length * sizeof(struct sock_filter));
    SAYS(next(file, level, name, into, length));
}

// Waiting.
OPENS(int, poll, (struct pollfd *files, nfds_t count, int timeout), (files, count, timeout), files, count * sizeof *files)
OPENS(int, epoll_wait, (int file, struct epoll_event *events, int most, int timeout), (file, events, most, timeout), events,
      most > 0 ? (size_t)most * sizeof *events : 0)
OPENS(pid_t, wait, (int *status), (status), status, sizeof *status)
OPENS(pid_t, waitpid, (pid_t child, int *status, int flags), (child, status, flags), status, sizeof *status)
OPENS(int, waitid, (idtype_t which, id_t child, siginfo_t *into, int flags), (which, child, into, flags), into, sizeof *into)

SHOWN pid_t wait4(pid_t child, int *status, int flags, struct rusage *used)
{
    NEXT(pid_t, wait4, (pid_t, int *, int, struct rusage *));
    mpgc_will_write(status, sizeof *status);
    mpgc_will_write(used, sizeof *used);
    SAYS(next(child, status, flags, used));
}

SHOWN pid_t wait3(int *status, int flags, struct rusage *used) { return wait4(-1, status, flags, used); }

// The C library writes the child's number while it blocks every signal, so also faults.
#define SPAWNS(name) \
    OPENS(int, name, (pid_t *restrict child, const char *restrict file, const posix_spawn_file_actions_t *restrict actions, \
                      const posix_spawnattr_t *restrict attributes, char *const words[restrict], char *const variables[restrict]), \
          (child, file, actions, attributes, words, variables), child, sizeof *child)
SPAWNS(posix_spawn)
SPAWNS(posix_spawnp)

// Sets of more files than the C library's have are longer: as far as the count goes the kernel writes.
static void will_write_sets(int count, fd_set *to_read, fd_set *to_write, fd_set *others)
{
    size_t words = count > 0 ? ((size_t)count + NFDBITS - 1) / NFDBITS : 0, bytes = words * sizeof(fd_mask);
    mpgc_will_write(to_read, bytes);
    mpgc_will_write(to_write, bytes);
    mpgc_will_write(others, bytes);
}

SHOWN int select(int count, fd_set *restrict to_read, fd_set *restrict to_write, fd_set *restrict others, struct timeval *restrict timeout)
{
    NEXT(int, select, (int, fd_set *, fd_set *, fd_set *, struct timeval *));
    will_write_sets(count, to_read, to_write, others);
    mpgc_will_write(timeout, sizeof *timeout);
    SAYS(next(count, to_read, to_write, others, timeout));
}

SHOWN int pselect(int count, fd_set *restrict to_read, fd_set *restrict to_write, fd_set *restrict others,
                  const struct timespec *restrict timeout, const sigset_t *restrict blocked)
{
    NEXT(int, pselect, (int, fd_set *, fd_set *, fd_set *, const struct timespec *, const sigset_t *));
    will_write_sets(count, to_read, to_write, others);
    sigset_t mask;
    SAYS(next(count, to_read, to_write, others, timeout, mpgc_without_faults(blocked, &mask)));
}

SHOWN int ppoll(struct pollfd *files, nfds_t count, const struct timespec *timeout, const sigset_t *blocked)
{
    NEXT(int, ppoll, (struct pollfd *, nfds_t, const struct timespec *, const sigset_t *));
    mpgc_will_write(files, count * sizeof *files);
    sigset_t mask;
    SAYS(next(files, count, timeout, mpgc_without_faults(blocked, &mask)));
}

#define WAITS_FOR_EVENTS(name, time) \
    SHOWN int name(int file, struct epoll_event *events, int most, time timeout, const sigset_t *blocked) \
    { \
        NEXT(int, name, (int, struct epoll_event *, int, time, const sigset_t *)); \
        if (most > 0) mpgc_will_write(events, (size_t)most * sizeof *events); \
        sigset_t mask; \
        SAYS(next(file, events, most, timeout, mpgc_without_faults(blocked, &mask))); \
    }
WAITS_FOR_EVENTS(epoll_pwait, int)
WAITS_FOR_EVENTS(epoll_pwait2, const struct timespec *)

// Times, and what the system tells of itself.
OPENS(int, clock_gettime, (clockid_t clock, struct timespec *into), (clock, into), into, sizeof *into)
OPENS(int, clock_getres, (clockid_t clock, struct timespec *into), (clock, into), into, sizeof *into)
OPENS(int, gettimeofday, (struct timeval *restrict into, void *restrict zone), (into, zone), into, sizeof *into)
OPENS(time_t, time, (time_t *into), (into), into, sizeof *into)
OPENS(clock_t, times, (struct tms *into), (into), into, sizeof *into)
OPENS(int, getitimer, (__itimer_which_t which, struct itimerval *into), (which, into), into, sizeof *into)
OPENS(int, setitimer, (__itimer_which_t which, const struct itimerval *restrict next_one, struct itimerval *restrict old),
      (which, next_one, old), old, sizeof *old)
OPENS(int, timer_gettime, (timer_t timer, struct itimerspec *into), (timer, into), into, sizeof *into)
OPENS(int, timer_settime, (timer_t timer, int flags, const struct itimerspec *restrict next_one, struct itimerspec *restrict old),
      (timer, flags, next_one, old), old, sizeof *old)
OPENS(int, timerfd_gettime, (int timer, struct itimerspec *into), (timer, into), into, sizeof *into)
OPENS(int, timerfd_settime, (int timer, int flags, const struct itimerspec *next_one, struct itimerspec *old),
      (timer, flags, next_one, old), old, sizeof *old)
OPENS(int, getrlimit, (__rlimit_resource_t which, struct rlimit *into), (which, into), into, sizeof *into)
OPENS(int, getrlimit64, (__rlimit_resource_t which, struct rlimit64 *into), (which, into), into, sizeof *into)
OPENS(int, getrusage, (__rusage_who_t who, struct rusage *into), (who, into), into, sizeof *into)
OPENS(int, uname, (struct utsname *into), (into), into, sizeof *into)
OPENS(int, sysinfo, (struct sysinfo *into), (into), into, sizeof *into)
OPENS(int, getgroups, (int most, gid_t into[]), (most, into), into, most > 0 ? (size_t)most * sizeof *into : 0)
OPENS(int, sched_getaffinity, (pid_t process, size_t bytes, cpu_set_t *into), (process, bytes, into), into, bytes)
OPENS(ssize_t, getrandom, (void *into, size_t bytes, unsigned flags), (into, bytes, flags), into, bytes)
OPENS(int, getentropy, (void *into, size_t bytes), (into, bytes), into, bytes)

// It ends the program where it can't write.
SHOWN void arc4random_buf(void *into, size_t bytes);
SHOWN void arc4random_buf(void *into, size_t bytes)
{
    NEXT(void, arc4random_buf, (void *, size_t));
    mpgc_will_write(into, bytes);
    next(into, bytes);
    mpgc_wrote();
}

// Signals that came: those that are waited for are in masks.c.
OPENS(int, sigpending, (sigset_t *into), (into), into, sizeof *into)

// What a device writes is as long as its number says, where that says it, and else no more than a page, behind the pointer. Where it reads there
// too, a list may follow that it counts: as far as the object goes. The list of a machine's interfaces lies where the program says there.
static size_t written_by(unsigned long number, const void *into)
{
    enum { MOST = 1 << 20 };
    uintptr_t base;
    size_t words, least = _IOC_SIZE(number) ? _IOC_SIZE(number) : PAGE;
    if (_IOC_DIR(number) != (_IOC_READ | _IOC_WRITE) || !mpgc_find((uintptr_t)into, &base, &words)) return least;
    size_t left = base + words * WORD - (uintptr_t)into;
    return left < least ? least : left < MOST ? left : MOST;
}

SHOWN int ioctl(int file, unsigned long number, ...)
{
    NEXT(int, ioctl, (int, unsigned long, void *));
    va_list rest;
    va_start(rest, number);
    void *into = va_arg(rest, void *);
    va_end(rest);
    const struct ifconf *list = number == SIOCGIFCONF ? into : NULL;
    if (list && list->ifc_len > 0) mpgc_will_write(list->ifc_buf, (size_t)list->ifc_len);
    if (GC_is_heap_ptr(into)) mpgc_will_write(into, written_by(number, into));
    SAYS(next(file, number, into));
}
