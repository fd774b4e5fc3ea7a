// The program's own handler of faults, behind the barrier's: what it sets by the C library's sigaction and signal, also by their old names,
// and how a fault reaches it that isn't of the barrier's making. It is told the handler that it had set itself. Handlers of other signals run
// without faults being blocked (masks.c), and else as ever.
//
// Were the barrier's handler replaced, a write to a closed page would come to the program's, and most likely end it: no page is opened by
// that.
#include "../front.h"
#include <pthread.h>
#include <ucontext.h>

static struct sigaction before;  // what the program does on a fault
static bool stands;              // the barrier's handler does, in front of it

// The C library's sigaction by its other name.
extern int __sigaction(int number, const struct sigaction *next, struct sigaction *old);

// One that is kept. What the C library answers has a longer mask than the kernel's, whose rest is as its stack was: as a root that would keep objects.
static struct sigaction cleared(const struct sigaction *one)
{
    struct sigaction clear = { .sa_flags = one->sa_flags };
    clear.sa_sigaction = one->sa_sigaction;
    clear.sa_mask.__val[0] = one->sa_mask.__val[0];
    return clear;
}

// From now on. It replaced this one, where that wasn't itself.
void mpgc_barrier_stands(const struct sigaction *old)
{
    if (old) before = cleared(old);
    stands = true;
}

// The fault isn't of the barrier's making: the program's own handler runs, under the signals that it would see.
void mpgc_pass_on(int number, siginfo_t *info, void *context)
{
    const ucontext_t *interrupted = context;
    struct sigaction program = before;
    bool was_sent = info->si_code <= 0;
    if (program.sa_handler == SIG_IGN && was_sent) return;
    if (program.sa_handler == SIG_DFL || program.sa_handler == SIG_IGN) {
        stands = false;
        signal(number, SIG_DFL);  // the instruction faults again, and ends the program
        if (was_sent) raise(number);
        return;
    }
    if (program.sa_flags & SA_RESETHAND) before.sa_handler = SIG_DFL;
    sigset_t blocked;
    sigorset(&blocked, &interrupted->uc_sigmask, &program.sa_mask);
    if (!(program.sa_flags & SA_NODEFER)) sigaddset(&blocked, number);
    pthread_sigmask(SIG_SETMASK, &blocked, NULL);
    if (program.sa_flags & SA_SIGINFO)
        program.sa_sigaction(number, info, context);
    else
        program.sa_handler(number);
}

static bool swap_handler(const struct sigaction *next, struct sigaction *old)
{
    if (!stands) return false;
    struct sigaction was = before;
    if (next) before = cleared(next);
    if (old) *old = was;
    return true;
}

// What the program does on the signal by which threads are stopped: it is given back, and never called while there are threads.
static struct sigaction kept;
void mpgc_stopper_stands(const struct sigaction *old) { kept = cleared(old); }
static bool swap_stopper(const struct sigaction *next, struct sigaction *old)
{
    if (!mpgc_is_threaded()) return false;
    struct sigaction was = kept;
    if (next) kept = cleared(next);
    if (old) *old = was;
    return true;
}

SHOWN int sigaction(int number, const struct sigaction *next, struct sigaction *old)
{
    if (number == SIGSEGV && swap_handler(next, old)) return 0;
    if (number == mpgc_stopper && swap_stopper(next, old)) return 0;
    if (!next) return SET_HANDLER(number, NULL, old);
    struct sigaction open = *next;
    (void)mpgc_without_faults(&next->sa_mask, &open.sa_mask);
    return SET_HANDLER(number, &open, old);
}

SHOWN __sighandler_t signal(int number, __sighandler_t handler)
{
    struct sigaction next = { .sa_handler = handler, .sa_flags = SA_RESTART }, old;
    if (number == SIGSEGV && swap_handler(&next, &old)) return old.sa_handler;
    if (number == mpgc_stopper && swap_stopper(&next, &old)) return old.sa_handler;
    return ssignal(number, handler);
}

SHOWN __sighandler_t bsd_signal(int number, __sighandler_t handler);
SHOWN __sighandler_t bsd_signal(int number, __sighandler_t handler) { return signal(number, handler); }

// The handler is for one signal, and others of its kind come in while it runs.
SHOWN __sighandler_t sysv_signal(int number, __sighandler_t handler)
{
    struct sigaction next = { .sa_handler = handler, .sa_flags = (int)(SA_RESETHAND | SA_NODEFER) }, old;
    return sigaction(number, &next, &old) == 0 ? old.sa_handler : SIG_ERR;
}
SHOWN __sighandler_t __sysv_signal(int number, __sighandler_t handler) { return sysv_signal(number, handler); }

// A later System V's, by which a signal is held too, until it has a handler.
SHOWN __sighandler_t sigset(int number, __sighandler_t handler)
{
    struct sigaction next = { .sa_handler = handler }, was;
    sigset_t one, old;
    bool holds = handler == SIG_HOLD;
    sigemptyset(&one);
    if (sigaddset(&one, handler == SIG_ERR ? 0 : number) != 0) return SIG_ERR;
    if (sigaction(number, holds ? NULL : &next, &was) != 0) return SIG_ERR;
    if (sigprocmask(holds ? SIG_BLOCK : SIG_UNBLOCK, &one, &old) != 0) return SIG_ERR;
    return sigismember(&old, number) ? SIG_HOLD : was.sa_handler;
}
SHOWN int sigignore(int number) { return sigaction(number, &(struct sigaction){ .sa_handler = SIG_IGN }, NULL); }
