// Other threads are stopped, and go on. Trusted, not proved.
//
// What it owes the core, of mpheap.h:
//
//   "Between calls, any 64-bit word may be put ..."   a call that reads words of the program (mpheap_begin, roots, mark, retrace, finish) is
//                                                     made while no other thread runs: so none of its writes falls into one (but
//                                                     mpheap_mark_beside and mpheap_retrace_beside allow them).
//                                                     The other calls read and write no word of an object that the program has, so that a
//                                                     write beside one is as good as one behind it (see protection.c)
//
// Who stops the world has the lock. Each thread that runs is sent a signal, whose handler says where its stack begins, and waits. The
// registers that it had lie above, in the signal's frame, or where the handler saved them, if it was called late (races.h). A thread is told to go on by a number that the waiting ones wait for; no second
// signal is needed. A thread that is blocked (GC_do_blocking) has said where its stack begins, and touches nothing before it has the lock.
//
// Nothing between stop and start may take a lock of the C library, as malloc and stdio do: a stopped thread may have it. That of the
// loaded objects (dl_iterate_phdr) is held when the world is stopped, so that no stopped thread has it. Who has it until then may
// need the layer's lock, to write into the heap: so this one is lent until then (lock.c).
// Counted under threads.
#include "layer.h"
#include <errno.h>
#include <link.h>
#include <linux/futex.h>
#include <sys/syscall.h>
#include <sys/types.h>
#include <time.h>
#include <ucontext.h>
#include <unistd.h>

enum { PATIENCE = 4000 };  // short waits, 20 seconds

int mpgc_stopper = SIGPWR;

static _Atomic uint32_t turn;     // odd while the world is stopped
static _Atomic uint32_t answers;  // of threads that wait in this turn
static unsigned stops;            // so often it was stopped, and not started
static double stopped_at;
static bool is_installed;

bool mpgc_world_is_stopped(void) { return stops > 0; }

// By the kernel's own call: waiting by the C library's a thread may be cancelled.
static long wait_while(_Atomic uint32_t *word, uint32_t value, const struct timespec *most)
{
    return mpgc_call_kernel(SYS_futex, word, FUTEX_WAIT_PRIVATE, value, most, NULL, 0);
}

static void wake(_Atomic uint32_t *word) { mpgc_call_kernel(SYS_futex, word, FUTEX_WAKE_PRIVATE, INT32_MAX, NULL, NULL, 0); }

// This thread, of which all registers lie above this frame, waits until the world goes on. Signals are blocked. Whether it is suspended is
// asked in one turn, since it becomes so in a stop; and if it is resumed in another one it waits for that one's end.
__attribute__((noinline)) static void wait_here(struct thread *self, const char *alt_top)
{
    const char *top = __builtin_frame_address(0);
    uint32_t now = turn;
    if (now % 2 == 0 || self->stop == now || self->state != RUNNING) return;
    const char *outer = self->top, *outer_alt = self->alt_top;
    self->stop = now;
    self->top = top;
    self->alt_top = alt_top;
    self->stands = true;
    answers++;
    wake(&answers);
    for (uint32_t seen = turn; self->is_suspended || seen == self->stop || seen != turn; seen = turn) wait_while(&turn, seen, NULL);
    self->stands = false;
    self->top = outer;
    self->alt_top = outer_alt;
}

// Whether a thread that was stopped hasn't gone on yet, though it may. The lock is held.
bool mpgc_is_one_standing(void)
{
    const struct thread *one = mpgc.threads;
    while (one && !(one->stands && one->state == RUNNING && !one->is_suspended)) one = one->next;
    return one && !mpgc_world_is_stopped();
}

// Whether no other thread runs, that a stop would wait for: that of the collector never does.
bool mpgc_stops_nobody(void)
{
    mpgc_lock();
    const struct thread *one = mpgc.threads;
    while (one && (one == mpgc_self || one->state != RUNNING || one->is_suspended)) one = one->next;
    mpgc_unlock();
    return !one;
}

// This thread is blocked (GC_do_blocking), and was told to wait.
void mpgc_wait_suspended(void)
{
    for (uint32_t seen = turn; mpgc_self->is_suspended; seen = turn) wait_while(&turn, seen, NULL);
}

static void on_suspend(int number, siginfo_t *info, void *context)
{
    const stack_t *alt = &((const ucontext_t *)context)->uc_stack;
    struct thread *self = mpgc_self;
    int kept = errno;
    const char *here = __builtin_frame_address(0), *low = alt->ss_sp;
    (void)number;
    (void)info;
    if (!self) return;
    __builtin_unwind_init();  // saves the registers that a call keeps
    self->stands_behind = mpgc_is_behind(self, context);
    bool is_on_alt = !(alt->ss_flags & SS_DISABLE) && here >= low && here < low + alt->ss_size;
    wait_here(self, is_on_alt ? low + alt->ss_size : NULL);
    errno = kept;
}

// Under it the signal waits too by which the C library cancels threads: else one that is in a call of the system would leave the handler before
// it has answered, with this signal blocked. But not the one by which it changes users: a suspended thread would hold off others for as long.
static void install(void)
{
    enum { CANCEL = 32 };
    struct sigaction ours = { .sa_sigaction = on_suspend, .sa_flags = SA_SIGINFO | SA_RESTART }, old;
    if (is_installed) return;
    sigfillset(&ours.sa_mask);
    ours.sa_mask.__val[0] |= (uint64_t)1 << (CANCEL - 1);
    if (SET_HANDLER(mpgc_stopper, &ours, &old) != 0) mpgc_stop("the kernel refused what stops threads");
    mpgc_stopper_stands(&old);
    is_installed = true;
}

// By the kernel's own call: those of the C library are taken for the program. The thread may have been made with all signals blocked, also
// that of faults, which the barrier needs.
void mpgc_make_stoppable(void)
{
    enum { BYTES = 8 };  // of a set, to the kernel
    uint64_t only = (uint64_t)1 << (mpgc_stopper - 1) | (uint64_t)1 << (SIGSEGV - 1);
    mpgc_lock();
    install();
    mpgc_unlock();
    if (mpgc_call_kernel(SYS_rt_sigprocmask, SIG_UNBLOCK, &only, NULL, BYTES) != 0) mpgc_stop("the kernel refused to unblock a signal");
}

// The process's first thread is there still for the kernel when it has ended, if others go on; but its list of locks that are held is gone.
static bool has_gone(const struct thread *one)
{
    void *list = &list;
    size_t bytes;
    return one->number == (uint32_t)getpid() && mpgc_call_kernel(SYS_get_robust_list, one->number, &list, &bytes) == 0 && !list;
}

// Where it has ended without a word, so that the kernel knows it no more, or is leaving, it has nothing.
static bool is_told(struct thread *one, int signal)
{
    bool is_there = mpgc_call_kernel(SYS_tgkill, getpid(), one->number, signal) == 0;
    if (!is_there && errno != ESRCH) mpgc_stop("the kernel refused to signal a thread");
    if (is_there && !(signal == 0 && (has_gone(one) || mpgc_is_leaving(one, mpgc_stopper)))) return true;
    one->state = ENDED;
    mpgc.are_some_gone = true;
    return false;
}

// So many are there that are to stop. By 0 nothing is told.
static uint32_t tell_others(int signal)
{
    uint32_t count = 0;
    for (struct thread *one = mpgc.threads; one; one = one->next) {
        if (one == mpgc_self || one->state != RUNNING || one->is_suspended || !is_told(one, signal)) continue;
        count++;
        if (signal != 0) mpgc_tell_of_thread(GC_EVENT_THREAD_SUSPENDED, one->id);
    }
    return count;
}

// Whether this thread is to stop, and hasn't answered.
static bool is_awaited(const struct thread *one)
{
    return one != mpgc_self && one->state == RUNNING && !one->is_suspended && one->stop != turn;
}

// Whether the kernel holds back each of those that are late.
static bool are_held_back(void)
{
    unsigned late = 0;
    for (const struct thread *one = mpgc.threads; one; one = one->next) {
        if (!is_awaited(one)) continue;
        if (!mpgc_is_held_back(one, mpgc_stopper)) return false;
        late++;
    }
    return late > 0;
}

// By short waits: one that was about to end when it was told won't answer, and while the whole process is stopped, for however long, none can.
// Nor can one whose child by vfork waits for the lock, to write into the heap: so behind the first of them it is lent.
static void await(uint32_t sent)
{
    static const struct timespec moment = { 0, 5000000 };
    unsigned late = 0;
    for (uint32_t seen = answers; seen < sent; seen = answers) {
        if (wait_while(&answers, seen, &moment) == 0 || errno != ETIMEDOUT) continue;
        if (late == 0) mpgc_lend();
        sent = tell_others(0);
        if (++late % PATIENCE == 0 && !are_held_back()) mpgc_stop("a thread didn't stop: does it block SIGPWR?");
    }
    if (late > 0) mpgc_end_loan();
}

static void stop_others(void)
{
    double start = mpgc_now();
    stopped_at = start;
    answers = 0;
    turn++;
    await(tell_others(mpgc_stopper));
    mpgc_count_stop(mpgc_now() - start);
}

static void let_others_go_on(void)
{
    for (const struct thread *one = mpgc.threads; one; one = one->next)
        if (one->stop == turn && !one->is_suspended) mpgc_tell_of_thread(GC_EVENT_THREAD_UNSUSPENDED, one->id);
    turn++;
    wake(&turn);
    mpgc_count_standing(mpgc_now() - stopped_at);
}

// One that was stopped behind a call under the lock (behind.c), and may go on.
static struct thread *first_behind(void)
{
    struct thread *one = mpgc.threads;
    while (one && !(one->stands_behind && one->stop == turn && one->stands && !one->is_suspended)) one = one->next;
    return one;
}

// Until this thread has gone on, and a moment more.
static void let_run(const struct thread *one)
{
    static const struct timespec moment = { 0, 20000 };
    for (unsigned k = 0; k < PATIENCE && one->stands; k++) mpgc_call_kernel(SYS_nanosleep, &moment, NULL);
    mpgc_call_kernel(SYS_nanosleep, &moment, NULL);
}

// All others, and none behind a call under the lock, but one that stays there.
static void stop_where_they_may(void)
{
    enum { TRIES = 50 };
    unsigned tries = 0;
    stop_others();
    for (struct thread *one = first_behind(); one; one = first_behind()) {
        if (++tries > TRIES) one->behind.returns = NULL;
        let_others_go_on();
        let_run(one);
        stop_others();
    }
}

static int stop_under_the_loader(struct dl_phdr_info *object, size_t size, void *unused)
{
    (void)object;
    (void)size;
    (void)unused;
    mpgc_end_loan();
    stop_where_they_may();
    return 1;
}

void mpgc_stop_world(void)
{
    if (stops++ > 0 || !mpgc.is_threaded) return;
    if (!HOLDS_LOADER) {
        stop_where_they_may();
        return;
    }
    mpgc_lend();
    dl_iterate_phdr(stop_under_the_loader, NULL);
}

void mpgc_start_world(void)
{
    if (--stops == 0 && mpgc.is_threaded && turn % 2 == 1) let_others_go_on();
}

void mpgc_stop_to_collect(void)
{
    mpgc_tell_event(GC_EVENT_PRE_STOP_WORLD);
    mpgc_stop_world();
    mpgc_tell_event(GC_EVENT_POST_STOP_WORLD);
}

void mpgc_start_after_collecting(void)
{
    mpgc_tell_event(GC_EVENT_PRE_START_WORLD);
    mpgc_start_world();
    mpgc_tell_event(GC_EVENT_POST_START_WORLD);
}

// As with bdwgc nothing is changed once the heap is there.
SHOWN void GC_set_suspend_signal(int number);
void GC_set_suspend_signal(int number)
{
    if (!GC_is_init_called()) mpgc_stopper = number;
}

SHOWN void GC_stop_world_external(void);
void GC_stop_world_external(void)
{
    sigset_t old;
    mpgc_enter();
    mpgc_lock();
    mpgc_block_signals(&old);
    mpgc_stop_world();
    mpgc_restore_signals(&old);
}

SHOWN void GC_start_world_external(void);
void GC_start_world_external(void)
{
    mpgc_start_world();
    mpgc_unlock();
}

// One thread that the program stops: it stops as all do, and doesn't go on with them.
static void suspend(struct thread *one)
{
    sigset_t old;
    mpgc_block_signals(&old);
    mpgc_stop_world();
    one->is_suspended = true;
    mpgc_wake_another();
    mpgc_start_world();
    mpgc_restore_signals(&old);
}

// No stop waits for this thread any more, which is blocked.
static void *suspend_this(void *data)
{
    mpgc_lock();
    mpgc_self->is_suspended = true;
    mpgc_unlock();
    mpgc_wait_suspended();
    return data;
}

SHOWN void GC_suspend_thread(pthread_t thread);
void GC_suspend_thread(pthread_t thread)
{
    mpgc_lock();
    struct thread *one = mpgc_record_of(thread);
    bool is_this = one && one == mpgc_self;
    if (one && !is_this && one->state != ENDED) suspend(one);
    mpgc_unlock();
    if (is_this) (void)GC_do_blocking(suspend_this, NULL);
}

SHOWN void GC_resume_thread(pthread_t thread);
void GC_resume_thread(pthread_t thread)
{
    mpgc_lock();
    struct thread *one = mpgc_record_of(thread);
    bool is_stop = turn % 2 == 1;  // then it goes on with the others
    if (one && is_stop) one->stop = turn;
    if (one) one->is_suspended = false;
    if (!is_stop) turn += 2;  // so that nobody sleeps who has seen the old one
    wake(&turn);
    mpgc_unlock();
}

SHOWN int GC_is_thread_suspended(pthread_t thread);
int GC_is_thread_suspended(pthread_t thread)
{
    mpgc_lock();
    const struct thread *one = mpgc_record_of(thread);
    int answer = one && one->is_suspended;
    mpgc_unlock();
    return answer;
}
