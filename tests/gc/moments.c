/* A signal comes between any two instructions of a request, and its handler makes requests too, or a collection. At each of these moments,
 * in a child of its own, each is given objects of its own, which stay; or the program is stopped by the sentence that says why. It comes in the
 * C library's malloc too, which the first collection leaves alone.
 *
 * The processor is told to trap behind each instruction (x86-64). */
#define _GNU_SOURCE
#include <signal.h>
#include <stdint.h>
#include <sys/syscall.h>
#include <ucontext.h>
#include "gc.h"
#include "check.h"
#include "traps.h"

enum { ROUND = 64, NEAR = 2, MOST = 2 * ROUND + NEAR, MARK = 7777 };
enum { IS_STOPPED = 70, IS_SHARED, IS_CHANGED, IS_NOT_NEW, SAYS_SOMETHING_ELSE };

static size_t size;
static uint64_t *old;
static uint64_t *ask(void) { return GC_malloc(size); }
static uint64_t *ask_atomic(void) { return GC_malloc_atomic(size); }
static uint64_t *ask_to_stay(void) { return GC_malloc_uncollectable(size); }
static uint64_t *ask_for_more(void) { return GC_realloc(old, size); }
static uint64_t *free_and_ask(void)
{
    GC_free(old);
    return GC_malloc(size);
}

/* What a handler does: so many requests, perhaps behind a collection. */
static uint64_t *(*asks)(void) = ask, *made[MOST];
static int turns = 1, collects;
static void handle(void)
{
    if (collects) GC_gcollect();
    for (int k = 0; k < turns; k++) {
        made[k] = asks();
        if (asks != ask_atomic && made[k][0] != 0) _exit(IS_NOT_NEW);
        made[k][0] = MARK;
    }
}

static void on_stop(const char *sentence) { _exit(strstr(sentence, "a call was made under another one") ? IS_STOPPED : SAYS_SOMETHING_ELSE); }

/* As a signal, which may be blocked: its handler comes when it isn't. Else at once. */
static int is_signal;
static void on_signal(int number)
{
    (void)number;
    handle();
}

static unsigned long moments, went_on, were_stopped, in_a_row, passed_by;

/* In the middle of a call of the heap each handler is stopped: behind so many moments of it only some are tried, others in each run of this
 * program, until one goes on. */
enum { ENOUGH = 50, EACH = 16 };
static int is_passed_by(void)
{
    if (in_a_row < ENOUGH || ++passed_by % EACH == 0) return 0;
    return 1;
}

/* A child does the handler's work, and goes on without traps; the program goes on to the next instruction, until a child fails, or hangs. */
static void on_trap(int number, siginfo_t *info, void *context)
{
    int status = 0;
    (void)number;
    (void)info;
    if (went_on + were_stopped < moments || is_passed_by()) return;
    moments++;
    pid_t child = (pid_t)syscall(SYS_fork);
    if (child == 0) {
        ((ucontext_t *)context)->uc_mcontext.gregs[REG_EFL] &= ~(greg_t)TRAP_FLAG;
        alarm(60);
        if (is_signal)
            raise(SIGUSR1);
        else
            handle();
        return;
    }
    waitpid(child, &status, 0);
    int is_stopped = WIFEXITED(status) && WEXITSTATUS(status) == IS_STOPPED;
    went_on += status == 0;
    were_stopped += is_stopped;
    in_a_row = is_stopped ? in_a_row + 1 : 0;
}

/* What calls left on the stack below this one is no root. */
__attribute__((noinline)) static void wipe(void)
{
    volatile char below[1 << 14];
    for (size_t k = 0; k < sizeof below; k++) below[k] = 0;
}

/* What a handler made to stay does so, though nothing names it, and others are made. */
static void hide_and_collect(void)
{
    for (int k = 0; k < turns; k++) made[k] = (uint64_t *)GC_HIDE_POINTER(made[k]);
    old = NULL;
    wipe();
    GC_gcollect();
    for (int k = 0; k < 3000; k++) ask()[0] = 1;
    for (int k = 0; k < turns; k++) made[k] = (uint64_t *)GC_REVEAL_POINTER(made[k]);
}

static void look_at(uint64_t *object)
{
    if (asks == ask_to_stay) hide_and_collect();
    for (int k = 0; k < turns; k++) {
        if (made[k] == object) _exit(IS_SHARED);
        if (made[k][0] != MARK) _exit(IS_CHANGED);
    }
    *object = 0;
}

/* Each moment of the request. Answers whether all went on, or were stopped. */
static int walk(uint64_t *(*request)(void))
{
    pid_t self = getpid();
    moments = went_on = were_stopped = in_a_row = 0;
    trap();
    uint64_t *object = request();
    trap_no_more();
    if (getpid() != self) {
        look_at(object);
        _exit(0);
    }
    if (went_on + were_stopped != moments) printf("  of %lu moments %lu went on, and %lu were stopped\n", moments, went_on, were_stopped);
    return went_on + were_stopped == moments && went_on > 0;
}

/* What malloc has in the middle of it is there in the end. */
static uint64_t *ask_malloc(void)
{
    enum { PIECES = 12 };
    static void *volatile pieces[PIECES];
    static uint64_t number;
    for (size_t k = 0; k < PIECES; k += 2) free(pieces[k]);
    for (size_t k = 0; k < PIECES; k++) pieces[k] = k % 2 ? pieces[k] : malloc(1200 + k % 5 * 300);
    for (size_t k = 1; k < PIECES; k += 2) pieces[k] = malloc(100 + k % 7 * 300);
    return &number;
}
static void others_memory(void)
{
    (void)ask_malloc();
    collects = 1;
    CHECK(walk(ask_malloc) && were_stopped == 0);
    collects = 0;
}

/* The first request of a size, and the next one, for which the thread has some already. */
static void first_ones(void)
{
    size += 16;
    asks = ask;
    CHECK(walk(ask) && were_stopped > 0);
    CHECK(walk(ask));
    asks = ask_atomic;
    CHECK(walk(ask_atomic) && were_stopped > 0);
    CHECK(walk(ask_atomic));
    asks = ask;
}

/* A handler takes all that the thread has of a size, and as many again. */
static void round_and_round(void)
{
    int are_right = 1;
    size = 24;
    for (turns = ROUND - NEAR; turns <= ROUND + NEAR; turns++) are_right &= walk(ask);
    for (turns = 2 * ROUND - NEAR; turns <= 2 * ROUND + NEAR; turns++) are_right &= walk(ask);
    CHECK(are_right);
    turns = 1;
}

/* A handler is given the object that is being freed: by the core, or where it isn't empty, by what the thread has. */
static void stay(void)
{
    size = 100;
    asks = ask_to_stay;
    turns = ROUND;
    for (int k = 0; k < ROUND; k++) (void)ask();
    old = ask_to_stay();
    CHECK(walk(free_and_ask) && were_stopped > 0);
    for (int k = 0; k < 2; k++) {
        old = ask_to_stay();
        *old = MARK;
        CHECK(walk(free_and_ask));
    }
    asks = ask;
    turns = 1;
}

static void others(void)
{
    size = 80;
    old = ask();
    CHECK(walk(free_and_ask) && were_stopped > 0);
    old = ask();
    size = 900;
    CHECK(walk(ask_for_more) && were_stopped > 0);
    size = 5000;
    CHECK(walk(ask) && were_stopped > 0);
}

/* The thread goes, with an object that it was given and didn't give out, and comes again. */
static uint64_t *go_and_come(void)
{
    struct GC_stack_base base;
    trap_no_more();
    GC_get_stack_base(&base);
    trap();
    GC_unregister_my_thread();
    trap_no_more();
    GC_register_my_thread(&base);
    return GC_malloc(size);
}
static void go(void)
{
    struct GC_stack_base base;
    GC_get_stack_base(&base);
    signal(SIGUSR1, on_signal);
    is_signal = 1;
    GC_allow_register_threads();
    GC_unregister_my_thread(); /* what it has of other sizes goes */
    GC_register_my_thread(&base);
    size = 1000;
    old = ask();
    CHECK(walk(go_and_come));
    is_signal = 0;
}

int main(void)
{
    struct sigaction action = { .sa_sigaction = on_trap, .sa_flags = SA_SIGINFO };
    passed_by = (unsigned long)getpid() % EACH;
    GC_INIT();
    GC_set_abort_func(on_stop);
    GC_expand_hp(1 << 22);
    sigaction(SIGTRAP, &action, NULL);
    others_memory();
    first_ones();
    collects = 1;
    first_ones();
    others();
    collects = 0;
    round_and_round();
    stay();
    go();
    return check_ends();
}
