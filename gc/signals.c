// Signals: the handler of the faults that closed pages make, and the collector's calls without interruption. Trusted, not proved.
//
// What it owes the core, of mpheap.h:
//
//   "the address was told by mpheap_written first"   a write to a closed page faults before anything is written; protection.c tells and
//                                                    opens the page, and then the write is done again
//   "Calls .. never from a signal handler that       every signal but those of faults is blocked under the collector's calls. Requests and
//   interrupted one of them"                         frees don't block them: a handler that makes a call under one stops the program
//                                                    (CALL), and what it writes to a closed page then is told when that call has returned
// Counted under the rest.
#include "layer.h"
#include <errno.h>
#include <linux/futex.h>
#include <sys/syscall.h>
#include <ucontext.h>
#include <unistd.h>

// Every signal, and the one by which the C library cancels threads: else a thread that has the lock, in a handler that came in a call in which it
// may be cancelled, would end with it.
static sigset_t every_signal(void)
{
    enum { CANCEL = 32 };
    sigset_t all;
    sigfillset(&all);
    all.__val[0] |= (uint64_t)1 << (CANCEL - 1);
    return all;
}

// By the kernel's own call: those of the C library are taken for the program (kernel/masks.c), and the collector's calls don't use them.
static void set_signals(const sigset_t *blocked, sigset_t *old)
{
    enum { BYTES = 8 };  // of a set, to the kernel
    if (mpgc_call_kernel(SYS_rt_sigprocmask, SIG_SETMASK, blocked, old, BYTES) != 0) mpgc_stop("the kernel refused to block signals");
}

static void block(sigset_t all, sigset_t *old)
{
    static const int of_faults[] = { SIGSEGV, SIGBUS, SIGFPE, SIGILL, SIGTRAP, SIGABRT };
    for (size_t k = 0; k < sizeof of_faults / sizeof *of_faults; k++) sigdelset(&all, of_faults[k]);
    set_signals(&all, old);
    sigdelset(old, SIGSEGV);
    if (mpgc.is_threaded) sigdelset(old, mpgc_stopper);  // the program may have been started with it blocked
}

void mpgc_block_signals(sigset_t *old) { block(every_signal(), old); }

// The same, but that this thread can be stopped: so it may wait for the lock.
void mpgc_block_handlers(sigset_t *old)
{
    sigset_t all = every_signal();
    sigdelset(&all, mpgc_stopper);
    block(all, old);
}

void mpgc_restore_signals(const sigset_t *old) { set_signals(old, NULL); }

enum { RED_ZONE = 128 };

static bool is_write(const void *context)
{
    enum { WRITE = 2 };  // of the bits that the processor tells of a fault
    return ((const ucontext_t *)context)->uc_mcontext.gregs[REG_ERR] & WRITE;
}

// Where the stack was, if that wasn't a signal's.
static const char *stack_under(const void *context)
{
    const ucontext_t *interrupted = context;
    const stack_t *alt = &interrupted->uc_stack;
    const char *at = (const char *)interrupted->uc_mcontext.gregs[REG_RSP];
    bool is_on_alt = !(alt->ss_flags & SS_DISABLE) && at >= (const char *)alt->ss_sp && at <= (const char *)alt->ss_sp + alt->ss_size;
    return is_on_alt ? mpgc_self->under : at - RED_ZONE;
}

// Whether the kernel may write to the page, where it changes no bit of the first word. (Who waits there for a change may be woken, for none.)
static bool can_be_written(size_t page)
{
    uint32_t nobody = 0;
    const int changes_nothing = FUTEX_OP(FUTEX_OP_OR, 0, FUTEX_OP_CMP_EQ, 0);
    return mpgc_call_kernel(SYS_futex, &nobody, FUTEX_WAKE_OP_PRIVATE, 0, NULL, FIRST + page * PAGE, changes_nothing) >= 0;
}

// A write to a page of the heap: mostly nothing but the barrier makes it fault. The lock may be another's for as long as a step of a
// collection: so this thread can be stopped here. Another thread may have opened the page since, and then the write is done again; where the
// kernel refuses it still, the program has protected the page itself.
static void on_fault(int number, siginfo_t *info, void *context)
{
    size_t page = mpgc_page_of((uintptr_t)info->si_addr);
    bool is_ours = info->si_code == SEGV_ACCERR && page < MAX_PAGES && is_write(context);
    if (!is_ours || !(mpgc.is_threaded || mpgc.is_closed[page])) {
        mpgc_pass_on(number, info, context);
        return;
    }
    if (!mpgc_self && !mpgc.is_threaded) mpgc_stop("a thread that nobody told of wrote into the heap: call GC_allow_register_threads first");
    int kept = errno;
    const char *was_under = mpgc_self ? mpgc_self->under : NULL;
    if (mpgc_self) mpgc_self->under = stack_under(context);
    struct loan loan;
    mpgc_lock_to_write(&loan);
    mpgc_figures.faults++;
    bool is_of_program = !mpgc.is_closed[page] && !can_be_written(page);
    if (mpgc.is_closed[page]) mpgc_let_write(page);
    mpgc_unlock_to_write(&loan);
    if (mpgc_self) mpgc_self->under = was_under;
    errno = kept;
    if (is_of_program) mpgc_pass_on(number, info, context);
}

// To be called before pages are closed, under blocked signals: where the C library's calls aren't taken (kernel/handlers.c), the program may
// have set its own handler. Under it the signal waits too by which the C library cancels threads: one that may be cancelled at any instruction
// would go with the lock.
void mpgc_take_faults(void)
{
    struct sigaction ours = { .sa_sigaction = on_fault, .sa_flags = SA_SIGINFO | SA_ONSTACK | SA_RESTART, .sa_mask = every_signal() }, old;
    sigdelset(&ours.sa_mask, mpgc_stopper);
    if (__sigaction(SIGSEGV, &ours, &old) != 0) mpgc_stop("the kernel refused a handler of faults");
    bool is_ours = (old.sa_flags & SA_SIGINFO) && old.sa_sigaction == on_fault;
    mpgc_barrier_stands(is_ours ? NULL : &old);
}

void mpgc_will_close(void)
{
    sigset_t old;
    mpgc_block_signals(&old);
    mpgc_take_faults();
    mpgc_restore_signals(&old);
}
