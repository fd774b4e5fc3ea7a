/* Whether a process hangs. On a busy machine the time on the wall says nothing of that: so it hangs if it was given none of the processor's
 * time in so many seconds, or has used so many of them. */
#ifndef WATCH_H
#define WATCH_H
#include <signal.h>
#include <stdio.h>
#include <sys/types.h>
#include <sys/wait.h>
#include <time.h>
#include <unistd.h>

struct watched { clockid_t clock; double first, last; int idle; };

static inline double time_had(clockid_t clock)
{
    struct timespec time = { 0, 0 };
    return clock_gettime(clock, &time) == 0 ? (double)time.tv_sec + (double)time.tv_nsec / 1e9 : 0;
}

static inline struct watched watched(pid_t process)
{
    struct watched one = { .idle = 0 };
    if (clock_getcpuclockid(process, &one.clock) != 0) _exit(9);
    one.first = one.last = time_had(one.clock);
    return one;
}

/* To be asked again and again: it waits for a second. */
static inline int hangs(struct watched *one, int seconds)
{
    struct timespec left = { 1, 0 };
    while (nanosleep(&left, &left) != 0) continue; /* the stop of a thread interrupts it */
    double now = time_had(one->clock);
    one->idle = now > one->last ? 0 : one->idle + 1;
    one->last = now;
    return one->idle >= seconds || now - one->first >= seconds;
}

/* A process that ends this one if it hangs. It holds no output open, and ends behind it. */
static inline pid_t watch(int seconds)
{
    pid_t parent = getpid(), child = fork();
    if (child != 0) return child;
    close(1);
    close(2);
    struct watched one = watched(parent);
    while (getppid() == parent && !hangs(&one, seconds)) continue;
    if (getppid() == parent) kill(parent, SIGKILL);
    _exit(0);
}

/* Runs the body in a child, which is ended if it hangs: also where its threads all block signals, so that no alarm would end it. Answers
 * whether it answered 0. */
static inline int ends_well(int (*body)(void), int seconds)
{
    enum { LOOKS = 200 };
    static const struct timespec moment = { 0, 5000000 };
    int status = -1, looks = 0;
    fflush(stdout);
    pid_t child = fork();
    if (child == 0) _exit(body());
    struct watched one = watched(child);
    while (waitpid(child, &status, WNOHANG) == 0 && (looks++ < LOOKS ? nanosleep(&moment, NULL) <= 0 : !hangs(&one, seconds))) continue;
    if (status == -1 && kill(child, SIGKILL) == 0) waitpid(child, NULL, 0);
    return WIFEXITED(status) && WEXITSTATUS(status) == 0;
}
#endif
