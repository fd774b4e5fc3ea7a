// One lock around the core, and around what the layer knows. Trusted, not proved.
//
// What it owes the core, of mpheap.h:
//
//   "Calls on one heap are made by one thread at a time"   every call stands between mpgc_call_begins and mpgc_call_ends, which take it
//
// The thread that has it may take it again, and so may a handler of its signals, at any instruction: so the word says who has it, how often
// is counted by the thread itself, and where a handler took it and gave it away between the two the thread takes it anew. A waiting thread
// can be stopped (world.c), since who stops it has the lock: so nobody may wait for it with that signal blocked. Until there is a second
// thread it is counted alone.
//
// Nobody sleeps without being woken: who sleeps is counted before he marks the word, and who takes it marks it if any are counted.
//
// It is lent, while who has it waits to stop the world (world.c), or for the C library's memory or its fork, to those that wait for it to write to a
// closed page, one at a time. For the one that holds him up may be among them: he walks over the loaded objects, has their lock, and writes into
// the heap there; or he is a thread's child by vfork, with its number, and the thread answers when he has gone; or a handler of the program came
// in the middle of his call of malloc; or he has a stream's lock, for which another one waits that has the lock of all, as a fork wants it.
//
//   - Nothing is lost: it is lent between two pieces of a collection, under no call of the core, and nobody but who borrowed it
//     touches what it guards until it is back. So the page is told and opened as before the piece, by one who had the lock then. Who has
//     it and comes to take it again, as malloc of the program's own may, ends the loan by that.
//   - No order of locks makes a ring: who has borrowed it waits for nobody (the core and the kernel tell and open the page), with
//     signals blocked, so that no handler of the program waits in his place. Who lends it waits for the lock of the loaded objects, those of
//     malloc and of streams, or for threads to answer, and behind that for whoever has borrowed it. (Who makes a request there still waits for
//     the lock in earnest.)
//   - A child has all that was written before anything that it has (the kernel makes the copy so). Where somebody had borrowed the lock then, that
//     stands in its word, and what he may have been in the middle of is known: pages that were noted, and not told (threads.c).
//   - Nobody sleeps through it: that it is lent, and borrowed, stands in the word. So each change keeps awake who is about to sleep,
//     and it wakes those that do.
//
// Who was woken finds it taken again by a thread that takes it step after step: so that one gives way between two (mpgc_give_way). And whoever
// gives it away waits until another has got it, or a moment has passed, once one says that he was woken in vain.
// Counted under threads.
#include "layer.h"
#include <errno.h>
#include <linux/futex.h>
#include <stdlib.h>
#include <sys/syscall.h>
#include <time.h>
#include <unistd.h>

#define WAITED_FOR ((uint32_t)1 << 31)
#define LENT ((uint32_t)1 << 30)
#define BORROWED ((uint32_t)1 << 29)
#define NUMBER (BORROWED - 1)  // the kernel's are lower
enum { SPINS = 500, MOST_WAYS = 16, VAIN = 3 };  // looks: some tens of microseconds; and so often one is woken in vain without a word

_Thread_local unsigned mpgc_lock_depth __attribute__((tls_model("initial-exec")));
static _Atomic uint32_t word;  // the number of the thread that has it, or 0; whether others wait, it is lent, and borrowed
static _Thread_local uint32_t me __attribute__((tls_model("initial-exec")));
static _Atomic uint32_t waiting;  // so many threads wait for it
static _Atomic uint32_t sleeping; // so many of these sleep, or are about to
static _Atomic uint32_t writing;  // so many of those that wait may borrow it
static _Atomic uint32_t handed;   // so often one of these has got it
static _Atomic uint32_t giving;   // so many threads sleep until the next one has
static atomic_bool starves;       // one was woken in vain, and nobody has given way since

// A child by vfork goes by its parent's thread's, which it shares. Of one that isn't known it may have written down its own: so that is asked for anew.
uint32_t mpgc_my_number(void)
{
    bool may_be_of_child = !mpgc_self && mpgc_lock_depth == 0;
    if (me == 0 || may_be_of_child) me = (uint32_t)mpgc_call_kernel(SYS_gettid);
    return me;
}

static bool is_mine(void) { return (word & NUMBER) == mpgc_my_number(); }

bool mpgc_has_lock(void) { return mpgc_lock_depth > 0; }

static bool change(uint32_t from, uint32_t to) { return atomic_compare_exchange_strong(&word, &from, to); }

// Whether it was free, and is this thread's now. The word still says whether others sleep.
static bool take_if_free(void)
{
    if (atomic_load_explicit(&word, memory_order_relaxed) != 0) return false;
    return change(0, sleeping > 0 ? me | WAITED_FOR : me);
}

// Until this thread is woken, unless the word has changed.
static void sleep_on(uint32_t seen)
{
    sleeping++;
    if ((seen & WAITED_FOR) || change(seen, seen | WAITED_FOR))
        mpgc_call_kernel(SYS_futex, &word, FUTEX_WAIT_PRIVATE, seen | WAITED_FOR, LONGEST_WAIT, NULL, 0);
    sleeping--;
}

static void wake_all(void) { mpgc_call_kernel(SYS_futex, &word, FUTEX_WAKE_PRIVATE, INT32_MAX, NULL, NULL, 0); }

static bool is_offered(const struct loan *loan, uint32_t seen) { return loan && (seen & LENT) && !(seen & BORROWED); }

// Whether it was to be borrowed, and is. By a handler of the program this thread might wait for the lock then, which isn't its own.
static bool borrow(struct loan *loan)
{
    uint32_t seen = word;
    if (!is_offered(loan, seen)) return false;
    mpgc_block_signals(&loan->old);
    loan->is_one = change(seen, seen | BORROWED);
    if (!loan->is_one) mpgc_restore_signals(&loan->old);
    return loan->is_one;
}

static void give_back(const struct loan *loan)
{
    if (atomic_fetch_and(&word, ~BORROWED) & WAITED_FOR) wake_all();
    mpgc_restore_signals(&loan->old);
}

// Who was woken looks at it for some time too: it is mostly held for less than a sleep takes, and who slept again at once would be woken by
// each thread that gives it away.
static void take_late(struct loan *loan)
{
    for (unsigned woken = 0;;) {
        for (int k = 0; k < SPINS; k++) {
            if (take_if_free() || borrow(loan)) return;
            __builtin_ia32_pause();
        }
        if (woken >= VAIN) starves = true;
        uint32_t seen = word;
        if (seen != 0 && !is_offered(loan, seen)) sleep_on(seen);
        if (!((word ^ seen) & (LENT | BORROWED))) woken++;  // or the loan alone kept it awake
    }
}

static void wait_for_it(struct loan *loan)
{
    waiting++;
    if (loan) writing++;
    take_late(loan);
    if (loan) writing--;
    waiting--;
    if (loan && loan->is_one) return;
    handed++;
    if (giving > 0) mpgc_call_kernel(SYS_futex, &handed, FUTEX_WAKE_PRIVATE, INT32_MAX, NULL, NULL, 0);
}

// One of those that wait has got it, unless a moment has passed: he may have been told to wait himself (world.c).
static bool let_one_have_it(void)
{
    static const struct timespec moment = { 0, 1000000 };
    int kept = errno;
    uint32_t seen = handed;
    giving++;
    bool is_late = waiting > 0 && mpgc_call_kernel(SYS_futex, &handed, FUTEX_WAIT_PRIVATE, seen, &moment, NULL, 0) != 0 && errno == ETIMEDOUT;
    giving--;
    errno = kept;
    return !is_late;
}

// Counted under the collector's thread.
// Who has given it away, and will take it again at once, lets those have it first that wait.
void mpgc_give_way(void)
{
    for (unsigned k = 0; k < MOST_WAYS && waiting > 0 && let_one_have_it(); k++) continue;
}

// Counted under threads.
static bool is_lent(void) { return word & LENT; }

// A handler that writes, of a thread that has lent it, borrows it as any other one.
static void take(struct loan *loan)
{
    for (;;) {
        bool is_own = is_mine() && !(loan && is_lent());
        if (!is_own && !change(0, me)) wait_for_it(loan);
        if (loan && loan->is_one) return;
        mpgc_lock_depth++;
        if (is_mine()) break;
        mpgc_lock_depth--;
    }
    if (is_lent()) mpgc_end_loan();
}

void mpgc_lock_slowly(void) { take(NULL); }

void mpgc_unlock_slowly(void)
{
    if (--mpgc_lock_depth > 0) return;
    for (uint32_t seen = word; (seen & NUMBER) == me; seen = word) {
        if (!change(seen, 0)) continue;
        if (seen & WAITED_FOR) mpgc_call_kernel(SYS_futex, &word, FUTEX_WAKE_PRIVATE, 1, NULL, NULL, 0);
        if (starves && atomic_exchange(&starves, false)) (void)let_one_have_it();
        return;
    }
}

// What has to be told and opened for a write is done between these two: with the lock, or by a loan of it.
void mpgc_lock_to_write(struct loan *loan)
{
    loan->is_one = false;
    if (mpgc.is_threaded)
        take(loan);
    else
        mpgc_lock();
}
void mpgc_unlock_to_write(const struct loan *loan)
{
    if (loan->is_one)
        give_back(loan);
    else
        mpgc_unlock();
}

// This thread has it, is under no call of the core, and touches nothing that it guards until it is back.
void mpgc_lend(void)
{
    word |= LENT;
    if (writing > 0) wake_all();
}
void mpgc_end_loan(void)
{
    word &= ~LENT;
    for (uint32_t seen = word; seen & BORROWED; seen = word) sleep_on(seen);
}

// The same, if this thread has it and may: in the middle of a call of the core, as for a handler's sake, it may not.
bool mpgc_lend_own(void)
{
    bool may = mpgc.is_threaded && mpgc_lock_depth > 0 && !mpgc.is_calling && !is_lent();
    if (may) mpgc_lend();
    return may;
}
void mpgc_end_own_loan(const bool *is_one)
{
    if (*is_one) mpgc_end_loan();
}

// Memory of malloc, for whose locks this thread may wait.
void *mpgc_memory(void *had, size_t bytes)
{
    LENDING;
    return realloc(had, bytes);
}
void *mpgc_cleared_memory(size_t count, size_t bytes)
{
    LENDING;
    return calloc(count, bytes);
}
void mpgc_drop_memory(void *had)
{
    LENDING;
    free(had);
}

// Who was woken may be suspended before he has taken it: so another one is woken, once this thread gives it away.
void mpgc_wake_another(void) { word |= WAITED_FOR; }

bool mpgc_is_threaded(void) { return mpgc.is_threaded; }

// There is one thread still. If it has the lock, by the depth alone, it has it in earnest from now on.
void mpgc_become_threaded(void)
{
    word = mpgc_lock_depth > 0 ? mpgc_my_number() : 0;
    mpgc.is_threaded = true;
}

// In a child, of which this is the only thread, and had the lock: its number is another one. Answers whether somebody had borrowed it.
bool mpgc_lock_in_child(void)
{
    bool was_borrowed = word & BORROWED;
    me = 0;
    waiting = 0;
    sleeping = 0;
    writing = 0;
    giving = 0;
    if (mpgc.is_threaded) word = mpgc_my_number();
    return was_borrowed;
}

void GC_alloc_lock(void) { mpgc_lock(); }
void GC_alloc_unlock(void) { mpgc_unlock(); }
