// The threads that are known: how they come and go, and what they have. Trusted, not proved.
//
// What it owes the core: as roots.c, each word by which the program may still reach an object is a root at a collection's end.
//
//   - A thread is known from before it is made until its last destructor of keys has run: so its argument is kept meanwhile by the record,
//     and what it has by its stack and registers.
//   - What it answered is kept until it is joined or detached.
//   - A thread that others made (by the kernel's own call, say) is known from its first request on.
//
// They are as many as the program makes: the core's mutators aren't its threads. All requests go by one mutator of the layer's, under the
// lock, and another one holds the roots of all threads while a collection reads them (roots.c).
// Counted under threads.
#include "layer.h"
#include "kernel/next.h"
#include <errno.h>
#include <stdlib.h>
#include <string.h>

SHOWN int GC_pthread_create(pthread_t *thread, const pthread_attr_t *attributes, void *(*start)(void *), void *data);
SHOWN _Noreturn void GC_pthread_exit(void *answer);

_Thread_local struct thread *mpgc_self __attribute__((tls_model("initial-exec")));

static pthread_key_t key;
enum { LAST_ROUND = 4 - ROUNDS_OF_TOOL };  // of destructors of keys: the C library makes four
static _Thread_local unsigned goodbyes __attribute__((tls_model("initial-exec")));
static bool is_late(void) { return goodbyes >= LAST_ROUND; }

// ---- Records ----

static void link_record(struct thread *record)
{
    record->next = mpgc.threads;
    mpgc.threads = record;
}

static void unlink_record(struct thread *record)
{
    struct thread **at = &mpgc.threads;
    mpgc_drop_pins(record);
    mpgc_figures.total += record->taken_back;
    while (*at && *at != record) at = &(*at)->next;
    if (*at) *at = record->next;
    mpgc_free_keys(record->late_keys);
    if (record != &mpgc.first) mpgc_drop_memory(record);
}

static struct thread *with_id(struct thread *one, pthread_t id)
{
    while (one && !pthread_equal(one->id, id)) one = one->next;
    return one;
}

struct thread *mpgc_record_of(pthread_t id) { return with_id(mpgc.threads, id); }

// One that asks late has another record by then, and is waited for by its first.
static struct thread *first_record_of(pthread_t id)
{
    struct thread *record = with_id(mpgc.threads, id);
    while (record && record->is_late) record = with_id(record->next, id);
    return record;
}

// ---- Coming ----

// The C library's function that makes a thread. It is found when the layer starts: who looks for it waits for a dlopen, and that may wait for
// the lock.
mpgc_creator *mpgc_next_creator(void)
{
    NEXT(int, pthread_create, (pthread_t *, const pthread_attr_t *, void *(*)(void *), void *));
    return next;
}

// This thread is the record's. Its stack is asked for before the lock is taken, since the C library may take locks for it.
static void find_this(struct thread *self, const struct GC_stack_base *base)
{
    mpgc_find_stack(&self->low, &self->bottom);
    if (base) self->bottom = base->mem_base;
    mpgc_set_keys(self);
    self->number = mpgc_my_number();
}

static void on_goodbye(void *record);

void mpgc_know_first(void)
{
    find_this(&mpgc.first, NULL);
    (void)mpgc_next_creator();
    mpgc.first.id = pthread_self();
    if (!GC_stackbottom) GC_stackbottom = (char *)(uintptr_t)mpgc.first.bottom;
    mpgc.first.state = RUNNING;
    mpgc.first.is_told = true;
    link_record(&mpgc.first);
    mpgc_self = &mpgc.first;
    if (pthread_key_create(&key, on_goodbye) != 0) mpgc_stop("the C library has no key left");
    (void)mpgc_set_own_key(key, &key);
}

static void become(enum thread_state state)
{
    mpgc_lock();
    while (state == RUNNING && mpgc_self->is_suspended) {
        mpgc_unlock();
        mpgc_wait_suspended();
        mpgc_lock();
    }
    mpgc_self->state = (int)state;
    mpgc_unlock();
}

// The record's thread runs, unless the program has suspended it already: what it was given is on its stack from then on. The destructor comes
// once it is known.
static void *run_as(struct thread *self)
{
    mpgc_make_stoppable();
    mpgc_self = self;
    become(RUNNING);
    void *data = self->data;
    self->data = NULL;
    (void)mpgc_set_own_key(key, &key);
    return data;
}

// There will be a second thread: so the first one, which makes it, has to be stoppable too.
static void be_threaded(void)
{
    if (mpgc.is_threaded) return;
    mpgc_become_threaded();
    mpgc_make_stoppable();
    mpgc_will_be_threaded();
}

// Of a thread that has told that it goes, and comes again: the one that it had, as who joins it will ask that one for its answer. Or else a new one.
static struct thread *record_of_this(void)
{
    struct thread *made = calloc(1, sizeof *made);
    if (!made) mpgc_stop("no memory for a thread's record");
    mpgc_lock();
    struct thread *had = is_late() ? NULL : first_record_of(pthread_self());
    if (had && had->state == ENDED) {
        memset(had->runs, 0, sizeof had->runs);
        had->state = STARTING;
    } else {
        made->id = pthread_self();
        made->is_late = is_late();
        made->is_detached = true;
        link_record(made);
    }
    mpgc_unlock();
    if (made->id) return made;
    free(made);
    return had;
}

// A thread that nobody told of. No handler of the program runs on it before it is known: that would call in as another thread, or be given
// what no root names.
void mpgc_know_this(const struct GC_stack_base *base)
{
    sigset_t old;
    if (!mpgc.is_threaded) mpgc_stop("a thread that nobody told of calls in: call GC_allow_register_threads first");
    mpgc_block_signals(&old);
    if (!mpgc_self) {
        struct thread *self = record_of_this();
        find_this(self, base);
        (void)run_as(self);
    }
    mpgc_restore_signals(&old);
}

// Until somebody has asked for it. Where the thread has told that it goes its record may be gone.
static void keep_answer(void *answer)
{
    mpgc_lock();
    struct thread *record = mpgc_self ? mpgc_self : first_record_of(pthread_self());
    if (record) record->data = answer;
    mpgc_unlock();
}

static void *begin(void *record)
{
    struct thread *self = record;
    find_this(self, NULL);
    void *data = run_as(self);
    mpgc_restore_signals(&self->signals);
    void *answer = self->start(data);
    keep_answer(answer);
    return answer;
}

// What signals the attributes say that the thread blocks, if they do; and that they say all, or these again. The lock is held.
static bool says_signals(const pthread_attr_t *attributes, sigset_t *signals)
{
    return attributes && pthread_attr_getsigmask_np(attributes, signals) == 0;
}
static void say_signals(const pthread_attr_t *attributes, const sigset_t *signals)
{
    if (pthread_attr_setsigmask_np((pthread_attr_t *)(uintptr_t)attributes, signals) != 0) mpgc_stop("the C library refused a thread's signals");
}

static int make_thread(struct thread *record, const pthread_attr_t *attributes)
{
    LENDING;
    return mpgc_next_creator()(&record->id, attributes, begin, record);
}

// No handler of the program runs on the new thread before that can be stopped: it might write while the world is. With the lock the thread isn't
// known by a number before that is here. (Who waits for the lock can be stopped: so signals are blocked behind it.)
static int create(struct thread *record, pthread_t *thread, const pthread_attr_t *attributes, void *data)
{
    sigset_t old, own, all;
    mpgc_lock();
    mpgc_block_signals(&old);
    bool has_own = says_signals(attributes, &own);
    sigfillset(&all);
    sigdelset(&all, SIGSEGV);
    if (has_own) say_signals(attributes, &all);
    record->signals = has_own ? own : old;
    sigdelset(&record->signals, SIGSEGV);
    sigdelset(&record->signals, mpgc_stopper);
    link_record(record);
    record->data = data;  // not before, when the record is no root and this thread may be stopped
    int answer = make_thread(record, attributes);
    *thread = record->id;
    if (has_own) say_signals(attributes, &own);
    if (answer != 0) unlink_record(record);
    mpgc_restore_signals(&old);
    mpgc_unlock();
    return answer;
}

int mpgc_create(pthread_t *thread, const pthread_attr_t *attributes, void *(*start)(void *), void *data, bool is_told)
{
    int is_detached = PTHREAD_CREATE_JOINABLE;
    mpgc_enter();
    be_threaded();
    struct thread *record = calloc(1, sizeof *record);
    if (!record) return EAGAIN;
    record->start = start;
    record->is_told = is_told;
    if (attributes) pthread_attr_getdetachstate(attributes, &is_detached);
    record->is_detached = is_detached == PTHREAD_CREATE_DETACHED;
    return create(record, thread, attributes, data);
}

int GC_pthread_create(pthread_t *thread, const pthread_attr_t *attributes, void *(*start)(void *), void *data)
{
    return mpgc_create(thread, attributes, start, data, true);
}

// ---- Going ----

static void unlink_if_over(struct thread *record)
{
    if (record->state == ENDED && record->is_detached && record->holders == 0) unlink_record(record);
}

// Those that ended without a word. The lock is held, and the world isn't stopped.
static void unlink_gone(void)
{
    if (!mpgc.are_some_gone) return;
    mpgc.are_some_gone = false;
    for (struct thread *one = mpgc.threads, *next; one; one = next) {
        next = one->next;
        unlink_if_over(one);
    }
}

// No stop waits for this thread any more, nor for a handler of the program, which would be given what its runs have while the core frees that.
// So from here on all signals but faults are blocked, as they were not before.
static void forget(struct thread *self, sigset_t *old)
{
    mpgc_lock();
    mpgc_block_signals(old);
    unlink_gone();
    mpgc_empty_runs(self);
    self->state = ENDED;
    self->late_keys = NULL;  // they are this thread's still
    mpgc_self = NULL;
    mpgc_drop_pins(self);
    unlink_if_over(self);
    (void)mpgc_wake_collector(false);
    if (mpgc_is_last_thread()) mpgc_dismiss_markers();
    mpgc_unlock();
}

// Other destructors may still use objects: so this one comes again until the last round. It does so too where the thread has told of itself that
// it goes, since what it has set by keys stays until then.
static void on_goodbye(void *again)
{
    sigset_t old;
    if (mpgc_self) become(RUNNING);  // it may have ended in a function that GC_do_blocking called
    if (++goodbyes < LAST_ROUND) {
        (void)mpgc_set_own_key(key, again);
        return;
    }
    mpgc_give_up_mutexes();
    if (mpgc_self) forget(mpgc_self, &old);
    mpgc_drop_keys();
    if (MOVES_SIGNALS_STACKS) mpgc_drop_signals_stack();
}

void GC_pthread_exit(void *answer)
{
    NEXT(void, pthread_exit, (void *));
    keep_answer(answer);
    next(answer);
    abort();
}

// The record stays until it is let go, though its thread may end, and may have told of itself.
static struct thread *hold(pthread_t id)
{
    mpgc_lock();
    struct thread *record = first_record_of(id);
    if (record) record->holders++;
    mpgc_unlock();
    return record;
}

// What the thread answered is the caller's from now on, or nobody's, if this was done; and else it stays as it was.
static int let_go(struct thread *record, int status)
{
    if (!record) return status;
    mpgc_lock();
    record->holders--;
    if (status == 0) record->is_detached = true;
    unlink_if_over(record);
    mpgc_unlock();
    return status;
}

static void give_up(void *record) { (void)let_go(record, ECANCELED); }

// The C library's function of this name, which waits for a thread: this one may be cancelled meanwhile.
#define ENDS(shown, name, words, values) \
    SHOWN int shown words; \
    int shown words \
    { \
        NEXT(int, name, words); \
        struct thread *record = hold(thread); \
        int status; \
        pthread_cleanup_push(give_up, record); \
        status = next values; \
        pthread_cleanup_pop(0); \
        return let_go(record, status); \
    }
ENDS(GC_pthread_join, pthread_join, (pthread_t thread, void **answer), (thread, answer))
ENDS(GC_pthread_detach, pthread_detach, (pthread_t thread), (thread))
ENDS(pthread_tryjoin_np, pthread_tryjoin_np, (pthread_t thread, void **answer), (thread, answer))
ENDS(pthread_timedjoin_np, pthread_timedjoin_np, (pthread_t thread, void **answer, const struct timespec *until), (thread, answer, until))
ENDS(pthread_clockjoin_np, pthread_clockjoin_np, (pthread_t thread, void **answer, clockid_t clock, const struct timespec *until),
     (thread, answer, clock, until))

// ---- What a program says of its threads ----

void GC_allow_register_threads(void)
{
    mpgc_enter();
    be_threaded();
}

// It may be known without: then all that is new is that the program has said so.
int GC_register_my_thread(const struct GC_stack_base *base)
{
    if (GC_thread_is_registered()) return GC_DUPLICATE;
    if (!GC_is_init_called()) mpgc_stop("GC_register_my_thread before GC_init");
    if (!mpgc_self) mpgc_know_this(base);
    mpgc_self->is_told = true;
    return GC_SUCCESS;
}

int GC_thread_is_registered(void) { return mpgc_self && mpgc_self->is_told; }

int GC_unregister_my_thread(void)
{
    struct thread *self = mpgc_self;
    sigset_t old;
    if (!self) return GC_SUCCESS;
    self->is_told = false;
    forget(self, &old);
    mpgc_restore_signals(&old);
    return GC_SUCCESS;
}

void *mpgc_this_thread(void) { return mpgc_self; }

bool mpgc_may_be_stopped(void) { return mpgc.is_threaded && mpgc_self && mpgc_self->state == RUNNING && mpgc_lock_depth == 0; }

struct call { GC_fn_type function; void *data, *answer; };

// Also where the function is left by an exception, or the thread is cancelled in it: what handles that may make requests.
static void be_again(const enum thread_state *was) { become(*was); }

// All that the thread has lies above what mpgc_from_here has saved, and isn't changed before the lock was taken.
static bool call_blocked(void *data)
{
    struct call *call = data;
    __attribute__((cleanup(be_again), unused)) const enum thread_state was = (enum thread_state)mpgc_self->state;
    become(BLOCKED);
    call->answer = call->function(call->data);
    return true;
}

void *GC_do_blocking(GC_fn_type function, void *data)
{
    struct call call = { function, data, NULL };
    mpgc_enter();
    (void)mpgc_with_registers(call_blocked, &call);
    return call.answer;
}

void *GC_call_with_gc_active(GC_fn_type function, void *data)
{
    if (!mpgc_self || mpgc_self->state != BLOCKED) return function(data);
    __attribute__((cleanup(be_again), unused)) const enum thread_state was = BLOCKED;
    become(RUNNING);
    return function(data);
}

bool mpgc_is_last_thread(void)
{
    mpgc_lock();
    const struct thread *one = mpgc.threads;
    while (one && (one == mpgc_self || one->is_late || one->state == ENDED)) one = one->next;
    mpgc_unlock();
    return !one;
}

// ---- fork ----

// The C library waits for locks of its own before it forks: so the lock is lent to who writes to a closed page and has one of these.
static void before_fork(void)
{
    mpgc_lock();
    mpgc.forks = true;
    (void)mpgc_lend_own();
}

static void tell_what_was_opened(void)
{
    mpgc_end_loan();
    mpgc.forks = false;
    if (!mpgc.is_calling) mpgc_tell_noted();
}

static void in_parent(void)
{
    tell_what_was_opened();
    mpgc_unlock();
}

// The others aren't there. Who had borrowed the lock may have opened a page that counts as closed, or not have written down all that he has pinned.
static void in_child(void)
{
    bool was_borrowed = mpgc_lock_in_child();
    if (was_borrowed) mpgc_keep_own_pins();
    struct thread *one = mpgc.threads;
    mpgc_lose_collector();
    mpgc_lose_markers();
    if (mpgc_self) mpgc_self->number = mpgc_my_number();
    while (one) {
        struct thread *next = one->next;
        if (one != mpgc_self) unlink_record(one);
        one = next;
    }
    tell_what_was_opened();
    if (was_borrowed) mpgc_leave_open();
    mpgc_unlock();
}

__attribute__((constructor)) static void take_forks(void) { pthread_atfork(before_fork, in_parent, in_child); }
