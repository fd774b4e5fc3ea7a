/* Stacks of the program's own, between which its threads move, each in turn: on each lies the only pointer to a list. Those on which no
 * thread is are pushed by the function of other roots. Over bdwgc (OTHER) too.
 *
 *     ALONE=1 stacks    the first thread says where it is by GC_stackbottom, a moment before it moves; TOLD=1 by GC_set_stackbottom.
 *                       In that moment the collector's own thread is waited for
 *     stacks            several threads: one that moves holds off the start of a collection, which holds off those that would move, until
 *                       that function has said on which stack each is */
#define _GNU_SOURCE
#define GC_THREADS
#include <dirent.h>
#include <pthread.h>
#include <sched.h>
#include <stdatomic.h>
#include <stdint.h>
#include <sys/mman.h>
#include <time.h>
#include <ucontext.h>
#include "gc.h"
#include <gc/gc_mark.h>
#include "check.h"
#include "watch.h"

enum { THREADS = 3, STACKS = 8, ROUNDS = 1500, LENGTH = 30, BYTES = 1 << 16, GUARD = 4096 };

struct node { struct node *next; uint64_t value; };

/* A stack; and a thread, which is on one of its own, of which the first is that it began with. */
struct stack { ucontext_t at; char *bottom; int waits; };
struct mover { struct stack stacks[STACKS]; int here; void *handle; };

static struct mover movers[THREADS];
static int is_alone, is_told;
static _Atomic int lost, holds, movers_now;
static GC_push_other_roots_proc others;

static void hold(void)
{
    for (;; movers_now--) {
        while (holds) sched_yield();
        movers_now++;
        if (!holds) return;
    }
}
static void let_go(void) { movers_now--; }

static void hold_all(void)
{
    while (atomic_exchange(&holds, 1)) sched_yield();
    while (movers_now) sched_yield();
}

static void push_stacks(struct mover *mover)
{
    for (int k = 0; k < STACKS; k++) {
        struct stack *one = &mover->stacks[k];
        if (one->waits) GC_push_all_eager((void *)(uintptr_t)one->at.uc_mcontext.gregs[REG_RSP], one->bottom);
    }
    struct GC_stack_base base = { .mem_base = mover->stacks[mover->here].bottom };
    if (!is_alone && mover->handle) GC_set_stackbottom(mover->handle, &base);
}
static void push_all(void)
{
    for (int k = 0; k < THREADS; k++) push_stacks(&movers[k]);
    holds = 0;
    if (others) others();
}

static int has_collector;    /* a thread of its own */
static _Atomic int goes_on;  /* a cycle */

static void on_event(GC_EventType event)
{
    if (event == GC_EVENT_START || event == GC_EVENT_END) goes_on = event == GC_EVENT_START;
}

/* Whether the collector's thread, the only other one, waits for a processor or has one. */
static int collector_is_awake(void)
{
    DIR *threads = opendir("/proc/self/task");
    int is_awake = 0;
    for (const struct dirent *one; threads && (one = readdir(threads));) {
        char path[300], text[100] = "", state = 'S';
        if (*one->d_name == '.' || strtol(one->d_name, NULL, 10) == getpid()) continue;
        snprintf(path, sizeof path, "/proc/self/task/%s/stat", one->d_name);
        FILE *file = fopen(path, "r");
        if (file && fgets(text, sizeof text, file)) sscanf(text, "%*d (%*[^)]) %c", &state);
        if (file) fclose(file);
        if (state == 'R') is_awake = 1;
    }
    if (threads) closedir(threads);
    return is_awake;
}

/* In a cycle that thread is awake, whoever began it, and stops this one here, once it is let run, however long that takes on a busy machine.
 * It then leaves all to the requests and sleeps, also where it stopped this one elsewhere: so this isn't looked for in every cycle. */
static void let_it_come(void)
{
    enum { ASLEEP = 3, CYCLES = 100 };
    static const struct timespec moment = { 0, 2000000 };
    static int cycles;
    if (!has_collector || !goes_on || cycles == CYCLES) return;
    for (int looks = 0; goes_on && looks < ASLEEP; looks = collector_is_awake() ? 0 : looks + 1) nanosleep(&moment, NULL);
    goes_on = 0;
    cycles++;
}

/* Before it moves. */
static void say(char *bottom)
{
    if (is_told)
        GC_set_stackbottom(NULL, &(struct GC_stack_base){ .mem_base = bottom });
    else
        GC_stackbottom = bottom;
    let_it_come();
}

static void move(struct mover *mover, int there)
{
    struct stack *from = &mover->stacks[mover->here], *to = &mover->stacks[there];
    if (is_alone)
        say(to->bottom);
    else
        hold();
    mover->here = there;
    from->waits = 1;
    to->waits = 0;
    swapcontext(&from->at, &to->at);
    if (!is_alone) let_go();
}

static struct node *list_of(uint64_t seed, int length)
{
    struct node *head = NULL;
    for (int k = 0; k < length; k++) {
        struct node *node = GC_malloc(sizeof *node);
        node->value = seed + (uint64_t)k;
        node->next = head;
        head = node;
    }
    return head;
}
static int is_list(const struct node *node, uint64_t seed, int length)
{
    for (; node; node = node->next)
        if (node->value != seed + (uint64_t)--length) return 0;
    return length == 0;
}

/* From stack to stack; what is here is looked at whenever the thread is here again. The last move is to the first one. */
static void go_round(struct mover *mover, int here)
{
    uint64_t seed = (uint64_t)here * ROUNDS;
    struct node *volatile list = list_of(seed, LENGTH);
    for (int k = 0; k < ROUNDS; k++) {
        (void)list_of(7, LENGTH);
        move(mover, (here + 1) % STACKS);
        if (!is_list(list, seed, LENGTH)) lost++;
        if (k % 3 == 0) list = list_of(++seed, LENGTH);
    }
}

static void begin(int which, int here)
{
    if (!is_alone) let_go();
    go_round(&movers[which], here);
    move(&movers[which], (here + 1) % STACKS);
    abort();
}

static void make_stack(struct mover *mover, int k)
{
    char *low = mmap(NULL, BYTES, PROT_READ | PROT_WRITE, MAP_PRIVATE | MAP_ANONYMOUS, -1, 0);
    if (low == MAP_FAILED || mprotect(low, GUARD, PROT_NONE) != 0) abort();
    struct stack *one = &mover->stacks[k];
    getcontext(&one->at);
    one->at.uc_stack.ss_sp = low + GUARD;
    one->at.uc_stack.ss_size = BYTES - GUARD;
    one->bottom = low + BYTES;
    makecontext(&one->at, (void (*)(void))begin, 2, (int)(mover - movers), k);
}

static void *work(void *data)
{
    struct mover *mover = data;
    struct GC_stack_base base;
    void *handle = GC_get_my_stackbottom(&base);
    mover->stacks[0].bottom = base.mem_base;
    for (int k = 1; k < STACKS; k++) make_stack(mover, k);
    hold();
    mover->handle = handle;
    let_go();
    go_round(mover, 0);
    hold();
    GC_set_stackbottom(handle, &base);
    mover->handle = NULL;
    for (int k = 0; k < STACKS; k++) mover->stacks[k].waits = 0;
    let_go();
    return data;
}

int main(void)
{
    pthread_t threads[THREADS];
    pid_t watcher = watch(60);
    is_told = getenv("TOLD") != NULL;
    is_alone = is_told || getenv("ALONE") != NULL;
    has_collector = getenv("GC_COLLECTOR_THREAD") != NULL;
    GC_set_free_space_divisor(40);
    GC_INIT();
    if (getenv("INCREMENTAL")) GC_enable_incremental();
    others = GC_get_push_other_roots();
    GC_set_push_other_roots(push_all);
    GC_set_start_callback(is_alone ? NULL : hold_all);
    GC_set_on_collection_event(on_event);
    for (int k = 1; !is_alone && k < THREADS; k++) CHECK(GC_pthread_create(&threads[k], NULL, work, &movers[k]) == 0);
    work(&movers[0]);
    for (int k = 1; !is_alone && k < THREADS; k++) GC_pthread_join(threads[k], NULL);
    CHECK(lost == 0);
    CHECK(GC_get_gc_no() > 10);
    kill(watcher, SIGKILL);
    return check_ends();
}
