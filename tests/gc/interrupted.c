/* A signal comes between any two instructions of a call by which the kernel writes into an ordinary object, of a request that opens pages, or of
 * what changes what is known of objects. At each of these moments, in a child of its own, its handler makes steps of a cycle, collects, or jumps
 * away: what is written there stays, what is known of others too, and what was jumped out of holds nobody up. */
#define _GNU_SOURCE
#include <pthread.h>
#include <setjmp.h>
#include <signal.h>
#include <stdint.h>
#include <sys/mman.h>
#include <sys/syscall.h>
#include <ucontext.h>
#include "gc.h"
#include <gc/gc_disclaim.h>
#include <gc/gc_mark.h>
#include <gc/gc_typed.h>
#include "check.h"
#include "traps.h"

enum { COUNT = 64, PLACES = 3, IS_STOPPED = 70, IS_SHORT, IS_LOST, HAS_NO_THREAD, SAYS_SOMETHING_ELSE };

/* Their places stand in a file alone, until they are read. */
static int file;
static GC_word hidden[COUNT];
static void **place[PLACES], *made[COUNT];

static void (*handle)(void);
static pid_t self;
static unsigned long moments, were_stopped, failed_at;
static int last_status;

static void on_signal(int number)
{
    (void)number;
    handle();
}
static void on_stop(const char *sentence) { _exit(strstr(sentence, "a call was made under another one") ? IS_STOPPED : SAYS_SOMETHING_ELSE); }

/* By the kernel itself: the C library's call would be one of those that are walked through. */
static int status_of_child(pid_t child)
{
    int status = 0;
    long number = SYS_wait4;
    register long in_fourth __asm__("r10") = 0;
    __asm__ volatile("syscall" : "+a"(number) : "D"((long)child), "S"(&status), "d"(0L), "r"(in_fourth) : "rcx", "r11", "memory");
    return number == child ? status : -1;
}

/* In the middle of a call of the heap each handler is stopped: behind so many moments of it only some are tried. */
static unsigned long in_a_row, passed_by;
static int is_passed_by(void)
{
    enum { ENOUGH = 50, EACH = 16 };
    return in_a_row >= ENOUGH && ++passed_by % EACH != 0;
}

static void on_trap(int number, siginfo_t *info, void *context)
{
    int status;
    (void)number;
    (void)info;
    if (failed_at != 0 || is_passed_by()) return;
    moments++;
    fflush(stdout);
    pid_t child = fork();
    if (child == 0) {
        ((ucontext_t *)context)->uc_mcontext.gregs[REG_EFL] &= ~(greg_t)TRAP_FLAG;
        alarm(60);
        raise(SIGUSR1);
        return;
    }
    status = status_of_child(child);
    int is_stopped = WIFEXITED(status) && WEXITSTATUS(status) == IS_STOPPED;
    were_stopped += is_stopped;
    in_a_row = is_stopped ? in_a_row + 1 : 0;
    if (status == 0 || is_stopped) return;
    failed_at = moments;
    last_status = status;
}

__attribute__((noinline)) static void wipe(void)
{
    volatile char below[1 << 14];
    for (size_t k = 0; k < sizeof below; k++) below[k] = 0;
}

__attribute__((noinline)) static void make(void)
{
    for (int k = 0; k < COUNT; k++) made[k] = GC_malloc_atomic(90);
}
__attribute__((noinline)) static void hide(void)
{
    if (pwrite(file, made, sizeof made, 0) != sizeof made) abort();
    for (int k = 0; k < COUNT; k++) hidden[k] = GC_HIDE_POINTER(made[k]);
    memset(made, 0, sizeof made);
}

/* Objects, each on a page that has room for another one, and is closed by then; and a cycle that has read the roots, and has little to mark. */
__attribute__((noinline)) static void make_places(void)
{
    for (int k = 0; k < 2 * PLACES; k++) place[k / 2] = GC_malloc(2000);
}
static void begin(int is_hidden)
{
    make_places();
    make();
    wipe();
    GC_gcollect();
    if (is_hidden) hide();
    wipe();
    GC_start_incremental_collection();
}

static void end(void)
{
    while (GC_collect_a_little()) continue;
}

static int count_kept(void)
{
    int kept = 0;
    wipe();
    end();
    for (int k = 0; k < COUNT; k++) kept += GC_base(GC_REVEAL_POINTER(hidden[k])) == GC_REVEAL_POINTER(hidden[k]);
    return kept;
}

static int is_read(void)
{
    return pread(file, place[1], COUNT * sizeof(void *), 0) == COUNT * sizeof(void *);
}

/* One step marks all, and reads the pages that were told. The next would end the cycle. */
static void make_step(void) { GC_collect_a_little(); }

static void steps_come(void)
{
    begin(1);
    handle = make_step;
    trap();
    int answer = is_read();
    trap_no_more();
    if (getpid() == self) return;
    if (!answer) _exit(IS_SHORT);
    _exit(count_kept() == COUNT ? 0 : IS_LOST);
}

/* Others go on behind it, and the kernel writes there again. */
static sigjmp_buf out;
static int has_jumped;
static void jump(void)
{
    has_jumped = 1;
    siglongjmp(out, 1);
}
static void *ask(void *data)
{
    for (int k = 0; k < 100; k++) GC_malloc(100);
    GC_gcollect();
    return data;
}
static void go_on(void)
{
    pthread_t thread;
    GC_start_incremental_collection();
    if (!is_read()) _exit(IS_SHORT);
    if (count_kept() != COUNT) _exit(IS_LOST);
    if (pthread_create(&thread, NULL, ask, NULL) != 0 || pthread_join(thread, NULL) != 0) _exit(HAS_NO_THREAD);
    _exit(0);
}
static void jumps_come(void)
{
    begin(1);
    handle = jump;
    if (sigsetjmp(out, 1) == 0) {
        trap();
        (void)is_read();
        trap_no_more();
    }
    if (getpid() == self) return;
    if (!has_jumped) _exit(IS_SHORT);
    end();
    make();
    hide();
    wipe();
    go_on();
}

/* Behind a cycle a request opens pages that are closed still. A cycle begins meanwhile, and marks all; the request itself may end it. */
static void *volatile asked_for;
static GC_word ended;
static void begin_another(void)
{
    GC_start_incremental_collection();
    make_step();
    GC_disable();
    ended = GC_get_gc_no();
}
static void cycles_begin(void)
{
    begin(0);
    end();
    hide();
    wipe();
    handle = begin_another;
    trap();
    asked_for = GC_malloc(3000);
    trap_no_more();
    if (getpid() == self) return;
    if (ended != GC_get_gc_no()) _exit(0);
    GC_enable();
    for (int k = 0; k < COUNT; k++) place[1][k] = GC_REVEAL_POINTER(hidden[k]);
    _exit(count_kept() == COUNT ? 0 : IS_LOST);
}

/* While a cycle marks, a request writes to a closed page. The handler does too, and ends the cycle. */
static void write_and_end(void)
{
    GC_enable();
    for (int k = 0; k < COUNT; k++) place[k % PLACES][k] = GC_REVEAL_POINTER(hidden[k]);
    if (count_kept() != COUNT) _exit(IS_LOST);
}
static void cycles_end(void)
{
    begin(1);
    make_step();
    handle = write_and_end;
    GC_disable();
    trap();
    asked_for = GC_malloc(2000);
    trap_no_more();
    if (getpid() != self) _exit(0);
    GC_enable();
}

/* A page comes to hold ordinary objects while a cycle marks. The handler is given others that lie there, writes to them, and ends the cycle. */
static void **others[COUNT];
static void write_to_others(void)
{
    for (int k = 0; k < COUNT; k++) *(others[k] = GC_malloc(1000)) = GC_REVEAL_POINTER(hidden[k]);
    GC_enable();
    if (count_kept() != COUNT) _exit(IS_LOST);
}
static void pages_are_learnt(void)
{
    begin(1);
    make_step();
    handle = write_to_others;
    GC_disable();
    trap();
    asked_for = GC_malloc(1000);
    trap_no_more();
    if (getpid() != self) _exit(0);
    GC_enable();
}

/* What is known of objects, in the order in which it is: the first one goes in the handler's collection, so that the others move; the second one is
 * worked on; and the second, or the last, leads to something. */
struct known { GC_word number; void *strong; };
static struct known *volatile first, *volatile second, *volatile last;
static GC_hidden_pointer leaf;
static int kinds[2];
static void drop_first(void)
{
    first = NULL;
    wipe();
    GC_gcollect();
}
__attribute__((noinline)) static void make_known(int leads)
{
    for (int k = 0; kinds[1] == 0; k++) kinds[k] = (int)GC_new_kind(GC_new_free_list(), (GC_word)1 << (62 - k) | GC_DS_BITMAP, 0, 1);
    first = GC_generic_malloc(40, kinds[1]);
    second = GC_generic_malloc(40, kinds[0]);
    last = GC_generic_malloc(40, kinds[leads != 2]);
    struct known *one = leads == 2 ? last : second;
    one->strong = GC_malloc_atomic(40);
    leaf = GC_HIDE_POINTER(one->strong);
}
static void begin_known(int leads)
{
    wipe();
    GC_gcollect();
    make_known(leads);
    handle = drop_first;
}
static void end_known(struct known *volatile *one)
{
    if (getpid() == self) return;
    for (int k = 0; k < 2; k++) {
        wipe();
        GC_gcollect();
    }
    _exit((*one)->strong == GC_REVEAL_POINTER(leaf) && GC_base((*one)->strong) == (*one)->strong ? 0 : IS_LOST);
}
static void described_ones_are_freed(void)
{
    begin_known(2);
    trap();
    GC_free(second);
    trap_no_more();
    second = NULL;
    end_known(&last);
}
static void described_ones_grow(void)
{
    begin_known(1);
    trap();
    second = GC_realloc(second, 200);
    trap_no_more();
    end_known(&second);
}
static void described_ones_are_made(void)
{
    begin_known(2);
    trap();
    second = GC_generic_malloc(40, kinds[0]);
    trap_no_more();
    second->strong = last->strong;
    last = NULL;
    end_known(&second);
}

/* Finalizers are called, and another object becomes ready, whose finalizer the handler calls: each once. */
static int called[2];
static void call(void *object, void *number)
{
    (void)object;
    called[(GC_word)number]++;
}
__attribute__((noinline)) static void make_finalized(void)
{
    GC_register_finalizer(GC_malloc(40), call, NULL, NULL, NULL);
    GC_register_finalizer(first = GC_malloc(40), call, (void *)1, NULL, NULL);
}
static void drop_and_call(void)
{
    drop_first();
    GC_invoke_finalizers();
}
static void finalizers_are_called(void)
{
    called[0] = called[1] = 0;
    GC_set_finalize_on_demand(1);
    make_finalized();
    wipe();
    GC_gcollect();
    handle = drop_and_call;
    trap();
    GC_invoke_finalizers();
    trap_no_more();
    for (int k = 0; k < 3; k++) drop_and_call();
    if (getpid() != self) _exit(called[0] == 1 && called[1] == 1 ? 0 : IS_LOST);
}

/* Objects are asked before they go: the last one is freed, or the first ones go, while the handler collects. Each is asked once, but that which was
 * freed. */
enum { ASKED = 6 };
static int times[ASKED], kind_of_asked, traps_when_asked;
static GC_word *volatile asked[ASKED];
static int is_asked(void *object)
{
    GC_word number = *(GC_word *)object;
    int traps = traps_when_asked;
    traps_when_asked = 0;
    if (traps) trap();
    if (number > 0) times[number - 1]++;
    return 0;
}
static void drop_some(void)
{
    asked[3] = NULL;
    first = NULL;
    wipe();
    GC_gcollect();
}
__attribute__((noinline)) static void make_asked(void)
{
    if (kind_of_asked == 0) kind_of_asked = (int)GC_new_kind(GC_new_free_list(), 0, 1, 1);
    GC_register_disclaim_proc(kind_of_asked, is_asked, 0);
    for (GC_word k = 0; k < ASKED; k++) *(asked[k] = GC_generic_malloc(200, kind_of_asked)) = k + 1;
    memset(times, 0, sizeof times);
    handle = drop_some;
    wipe();
}
static void end_asked(int are_asked)
{
    for (int k = 0; k < ASKED; k++) asked[k] = NULL;
    for (int k = 0; k < 3; k++) drop_some();
    if (getpid() == self) return;
    for (int k = 0; k < ASKED; k++)
        if (times[k] != (k < are_asked)) _exit(IS_LOST);
    _exit(0);
}
static void asked_ones_are_freed(void)
{
    make_asked();
    trap();
    GC_free(asked[ASKED - 1]);
    trap_no_more();
    end_asked(ASKED - 1);
}
static void asked_ones_are_called(void)
{
    make_asked();
    for (int k = 0; k < 3; k++) asked[k] = NULL;
    wipe();
    traps_when_asked = 1;
    GC_gcollect();
    end_asked(ASKED);
}

/* The program is asked for toggle references: those that stay do so, when the first one goes while the second one is dropped. */
enum { TOGGLED = 4 };
static GC_hidden_pointer toggled[TOGGLED];
static GC_ToggleRefStatus is_strong(void *object)
{
    const struct known *one = object;
    int traps = traps_when_asked && one->number == 1;
    traps_when_asked -= traps;
    if (traps) trap();
    return one->number == 0 ? GC_TOGGLE_REF_WEAK : one->number == 1 || one->number == TOGGLED ? GC_TOGGLE_REF_DROP : GC_TOGGLE_REF_STRONG;
}
__attribute__((noinline)) static void make_toggled(void)
{
    GC_set_toggleref_func(is_strong);
    for (GC_word k = 0; k < TOGGLED; k++) {
        struct known *one = GC_malloc(200);
        one->number = k;
        if (k == 0) first = one;
        toggled[k] = GC_HIDE_POINTER(one);
        GC_toggleref_add(one, 1);
    }
}
static void toggled_ones_are_asked(void)
{
    make_toggled();
    wipe();
    handle = drop_first;
    traps_when_asked = 1;
    GC_gcollect();
    for (int k = 0; k < 3; k++) drop_first();
    for (GC_word k = 2; k < TOGGLED; k++) {
        struct known *one = GC_REVEAL_POINTER(toggled[k]);
        if (GC_base(one) != one || one->number != k) _exit(IS_LOST);
        one->number = TOGGLED;
    }
    if (getpid() != self) _exit(0);
}

/* Where what is walked through begins in a function of the program it ends where the collection goes on. */
static void end_walk(GC_EventType event)
{
    if (event == GC_EVENT_START || event == GC_EVENT_MARK_END) trap_no_more();
}

/* Each moment of it. */
static int walk(void (*way)(void), int may_stop)
{
    moments = were_stopped = failed_at = 0;
    way();
    end();
    if (failed_at != 0) printf("  failed at moment %lu, by status %x\n", failed_at, (unsigned)last_status);
    return moments > 0 && failed_at == 0 && (may_stop || were_stopped == 0);
}

int main(void)
{
    struct sigaction traps = { .sa_sigaction = on_trap, .sa_flags = SA_SIGINFO }, signals = { .sa_handler = on_signal };
    self = getpid();
    file = memfd_create("places", 0);
    GC_INIT();
    GC_set_abort_func(on_stop);
    GC_enable_incremental();
    sigaction(SIGTRAP, &traps, NULL);
    sigaction(SIGUSR1, &signals, NULL);
    CHECK(walk(pages_are_learnt, 1)); /* the first one, since no page has held objects yet */
    CHECK(walk(steps_come, 0));
    if (failed == 0) CHECK(walk(jumps_come, 0));
    CHECK(walk(cycles_begin, 1));
    CHECK(walk(cycles_end, 1));
    GC_set_on_collection_event(end_walk);
    CHECK(walk(described_ones_are_freed, 1));
    CHECK(walk(described_ones_grow, 1));
    CHECK(walk(described_ones_are_made, 1));
    CHECK(walk(finalizers_are_called, 1));
    CHECK(walk(asked_ones_are_freed, 1));
    CHECK(walk(asked_ones_are_called, 1));
    CHECK(walk(toggled_ones_are_asked, 1));
    return check_ends();
}
