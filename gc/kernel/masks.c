// The C library's calls by which a program blocks signals, without SIGSEGV, and without SIGPWR or what it has named in its place: a write to a
// closed page while faults are blocked would end the program, since the kernel can't hold back such a fault; and by the other one threads are
// stopped. Of other signals nothing is different. Those by which it waits for signals leave the second out as well, which would be handed to it
// in place of its handler.
#include "../front.h"
#include <errno.h>
#include <pthread.h>
#include <sys/signalfd.h>
#include <sys/syscall.h>
#include <unistd.h>

enum { BYTES = 8 };  // of a set, to the kernel

// These signals but faults, in `room`; null for null. The C library's own two, 32 and 33, are never blocked.
const sigset_t *mpgc_without_faults(const sigset_t *signals, sigset_t *room)
{
    if (!signals) return NULL;
    *room = *signals;
    sigdelset(room, SIGSEGV);
    sigdelset(room, mpgc_stopper);
    room->__val[0] &= ~(3ul << 31);
    return room;
}

// So these are waited for, but that by which threads are stopped, once there are some.
static const sigset_t *without_stops(const sigset_t *signals, sigset_t *room)
{
    if (!signals) return NULL;
    *room = *signals;
    if (mpgc_is_threaded()) sigdelset(room, mpgc_stopper);
    return room;
}

SHOWN int sigprocmask(int how, const sigset_t *restrict next, sigset_t *restrict old)
{
    sigset_t room;
    mpgc_will_write(old, BYTES);
    long answer = mpgc_call_kernel(SYS_rt_sigprocmask, how, how == SIG_UNBLOCK ? next : mpgc_without_faults(next, &room), old, BYTES);
    mpgc_wrote();
    return (int)answer;
}

SHOWN int pthread_sigmask(int how, const sigset_t *restrict next, sigset_t *restrict old)
{
    int kept = errno, answer = sigprocmask(how, next, old) == 0 ? 0 : errno;
    errno = kept;
    return answer;
}

// The old names, for the first 32 signals.
static int change_lowest(int how, int signals)
{
    sigset_t next = { { (unsigned)signals } }, old;
    return sigprocmask(how, &next, &old) == 0 ? (int)old.__val[0] : -1;
}
SHOWN int sigblock(int signals) { return change_lowest(SIG_BLOCK, signals); }
SHOWN int sigsetmask(int signals) { return change_lowest(SIG_SETMASK, signals); }
SHOWN int sighold(int signal)
{
    sigset_t next;
    sigemptyset(&next);
    return sigaddset(&next, signal) == 0 ? sigprocmask(SIG_BLOCK, &next, NULL) : -1;
}

// A call by which this thread waits, and may be cancelled, as by the C library's.
#define WAITS(answer, call) do { \
        int type_; \
        pthread_setcanceltype(PTHREAD_CANCEL_ASYNCHRONOUS, &type_); \
        (answer) = (int)(call); \
        pthread_setcanceltype(type_, &type_); \
    } while (0)

SHOWN int sigsuspend(const sigset_t *signals)
{
    sigset_t room;
    const sigset_t *blocked = mpgc_without_faults(signals, &room);
    int answer;
    WAITS(answer, mpgc_call_kernel(SYS_rt_sigsuspend, blocked, BYTES));
    return answer;
}

// The old one, by a name that the header has for X/Open's, which is given one signal and blocks no more than is blocked.
SHOWN int pause_under(int signals) __asm__("sigpause");
SHOWN int pause_under(int signals)
{
    sigset_t blocked = { { (unsigned)signals } };
    return sigsuspend(&blocked);
}

// What a thread was sent by the kernel's other call for it counts as sent by a user, as the C library has it.
SHOWN int sigtimedwait(const sigset_t *restrict signals, siginfo_t *restrict into, const struct timespec *restrict timeout)
{
    sigset_t room;
    const sigset_t *wanted = without_stops(signals, &room);
    int number;
    mpgc_will_write(into, sizeof *into);
    WAITS(number, mpgc_call_kernel(SYS_rt_sigtimedwait, wanted, into, timeout, BYTES));
    if (number != -1 && into && into->si_code == SI_TKILL) into->si_code = SI_USER;
    mpgc_wrote();
    return number;
}

SHOWN int sigwaitinfo(const sigset_t *restrict signals, siginfo_t *restrict into) { return sigtimedwait(signals, into, NULL); }

SHOWN int sigwait(const sigset_t *restrict signals, int *restrict into)
{
    int number, kept = errno, status;
    while ((number = sigtimedwait(signals, NULL, NULL)) == -1 && errno == EINTR) continue;
    status = errno;
    errno = kept;
    if (number == -1) return status;
    *into = number;
    return 0;
}

SHOWN int signalfd(int file, const sigset_t *signals, int flags)
{
    sigset_t room;
    return (int)mpgc_call_kernel(SYS_signalfd4, file, mpgc_without_faults(signals, &room), BYTES, flags);
}
