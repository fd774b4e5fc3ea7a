/* What stands round the write barrier: faults that are not the barrier's, other threads, other stacks, children, and pointers that move
 * while a cycle marks. */
#define _GNU_SOURCE
#include <errno.h>
#include <pthread.h>
#include <setjmp.h>
#include <signal.h>
#include <stdint.h>
#include <sys/syscall.h>
#include <ucontext.h>
#include "check.h"
#include "cycle.h"

static sigjmp_buf back;
static void *fault_address;
static volatile int plain_faults, told_faults;

static void on_fault_told(int number, siginfo_t *info, void *context)
{
    (void)number;
    (void)context;
    if (++told_faults > 100) _exit(1); /* these are the barrier's */
    fault_address = info->si_addr;
    siglongjmp(back, 1);
}
static void on_fault_plain(int number)
{
    (void)number;
    plain_faults++;
    siglongjmp(back, 1);
}

static int *volatile nowhere = (int *)64;

static int faults(void)
{
    if (sigsetjmp(back, 1) == 0) {
        *nowhere = 1;
        return 0;
    }
    return 1;
}

static int dies(void)
{
    signal(SIGSEGV, SIG_DFL);
    begin();
    *nowhere = 1;
    return 0;
}

static void foreign_faults(void)
{
    struct sigaction told = { .sa_sigaction = on_fault_told, .sa_flags = SA_SIGINFO };
    begin();
    CHECK(faults() && plain_faults == 1); /* the handler from before GC_init */
    end();
    sigaction(SIGSEGV, &told, NULL);
    begin();
    CHECK(faults() && fault_address == nowhere); /* the one that was set since */
    struct sigaction seen;
    CHECK(sigaction(SIGSEGV, NULL, &seen) == 0 && seen.sa_sigaction == on_fault_told && (seen.sa_flags & SA_SIGINFO));
    CHECK(sigaction(SIGSEGV, &told, &seen) == 0 && seen.sa_sigaction == on_fault_told); /* once more, while a cycle marks */
    sigset_t blocked;
    pthread_sigmask(SIG_SETMASK, NULL, &blocked);
    CHECK(!sigismember(&blocked, SIGUSR1) && !sigismember(&blocked, SIGSEGV));
    for (int k = 0; k < COUNT; k++) *(void **)(void *)ordinary[k] = ordinary[(k + 7) % COUNT];
    CHECK(*(void **)(void *)ordinary[3] == ordinary[10] && told_faults == 1);
    CHECK(signal(SIGSEGV, on_fault_plain) != SIG_ERR && faults() && plain_faults == 2);
    end();
    int status;
    fflush(stdout);
    pid_t child = fork();
    if (child == 0) _exit(dies());
    waitpid(child, &status, 0);
    CHECK(WIFSIGNALED(status) && WTERMSIG(status) == SIGSEGV);
}

static void keeps_errno(void)
{
    begin();
    for (int k = 0; k < COUNT; k++) {
        errno = 77;
        ordinary[k][0] = 1;
        CHECK(errno == 77);
    }
    end();
}

static void *asks(void *unused)
{
    (void)unused;
    return GC_malloc(10);
}
static void *writes(void *unused)
{
    (void)unused;
    ordinary[300][0] = 1;
    return NULL;
}
static void in_thread(void *(*body)(void *))
{
    pthread_t thread;
    pthread_create(&thread, NULL, body, NULL);
    pthread_join(thread, NULL);
}
#ifdef WITHOUT_SYSCALLS
static void second_asks(void) { in_thread(asks); }
static void second_writes(void)
{
    begin();
    in_thread(writes);
}
#else
static int second_goes_on(void)
{
    begin();
    in_thread(writes);
    in_thread(asks);
    end();
    return ordinary[300][0] == 1 ? 0 : 1;
}
#endif

#ifndef WITHOUT_SYSCALLS
/* A fault on a page that another thread has opened before its handler came: what the kernel tells then is sent, behind a write that faulted
 * so. It is nobody else's. */
static volatile int heard;
static void hears(int number)
{
    (void)number;
    heard++;
}
static int another_opened_it(void)
{
    struct sigaction plain = { .sa_handler = hears };
    siginfo_t fault = { .si_signo = SIGSEGV, .si_code = SEGV_ACCERR };
    in_thread(asks);
    begin();
    sigaction(SIGSEGV, &plain, NULL);
    for (int k = 0; k < COUNT; k++) {
        ordinary[k][0] = 1;
        fault.si_addr = ordinary[k];
        if (syscall(SYS_rt_tgsigqueueinfo, getpid(), syscall(SYS_gettid), SIGSEGV, &fault) != 0) return 2;
    }
    end();
    return heard == 0 ? 0 : 1;
}
#endif

/* The program moves to another stack, and doesn't say so. */
static void on_other_stack(void)
{
    static char other_stack[100000];
    static ucontext_t here, there;
    getcontext(&there);
    there.uc_stack = (stack_t){ .ss_sp = other_stack, .ss_size = sizeof other_stack };
    makecontext(&there, GC_gcollect, 0);
    swapcontext(&here, &there);
}

/* A handler of the program writes into the heap between calls. */
static volatile int rings;
static void rings_bell(int number)
{
    (void)number;
    rings++;
    for (int k = 0; k < COUNT; k += 50) *(void **)(void *)(ordinary[k] + 8) = ordinary[(k + rings) % COUNT];
}
static void handlers_write(void)
{
    signal(SIGUSR2, rings_bell);
    for (int round = 0; round < 20; round++) {
        int before = rings;
        begin();
        while (GC_collect_a_little()) raise(SIGUSR2);
        GC_gcollect();
        for (int k = 0; k < COUNT; k += 50) CHECK(GC_base(*(void **)(void *)(ordinary[k] + 8)) != NULL || rings == before);
    }
    CHECK(rings >= 20);
}

static int child_goes_on(void)
{
    for (int k = 0; k < COUNT; k++) *(void **)(void *)ordinary[k] = GC_malloc(100);
    while (GC_collect_a_little()) continue;
    GC_gcollect();
    for (int k = 0; k < COUNT; k++)
        if (!GC_base(*(void **)(void *)ordinary[k])) return 1;
    return 0;
}

/* The hidden pointer: while a cycle marks, the only pointer to an object goes from where the marker will come to where it has been. */
static void **volatile chain_start, **volatile chain_end;

static __attribute__((noinline)) GC_word make_chain(int nodes)
{
    void **last = chain_start = GC_malloc(200);
    for (int k = 0; k < nodes; k++) {
        last[0] = GC_malloc(200);
        last = last[0];
    }
    last[5] = GC_malloc_atomic(90);
    chain_end = last;
    return GC_HIDE_POINTER(last[5]);
}

/* Ways of the pointer: to the start of the chain, where the marker has been; into an object that is new, on a page of its own or among
 * others, where the request itself writes to a closed page; and from node to node with each step, so that it comes to pages that were
 * read again. */
static void **volatile newest;
static __attribute__((noinline)) void move_to_start(void)
{
    chain_start[5] = chain_end[5];
    chain_end[5] = NULL;
}

static __attribute__((noinline)) void move_to_new(void)
{
    newest = GC_malloc(3000);
    newest[5] = chain_end[5];
    chain_end[5] = NULL;
}

static __attribute__((noinline)) void move_to_new_among(void)
{
    newest = GC_malloc(200);
    newest[5] = chain_end[5];
    chain_end[5] = NULL;
}

static __attribute__((noinline)) void **node(int number)
{
    void **at = chain_start;
    while (number-- > 0) at = at[0];
    return at;
}

static __attribute__((noinline)) void move_on(int from, int to)
{
    void **old = node(from), **next = node(to);
    next[5] = old[5];
    if (from != to) old[5] = NULL;
}

static __attribute__((noinline)) void clear_stack(void)
{
    char old[20000];
    explicit_bzero(old, sizeof old);
}

/* The lowest free pages were last given to pointer-free objects, so that they are open when a cycle marks. */
static __attribute__((noinline)) void free_atomics(void)
{
    void *texts[200];
    for (int k = 0; k < 200; k++) texts[k] = GC_malloc_atomic(3000);
    for (int k = 0; k < 200; k++) GC_free(texts[k]);
}

/* A chain whose end names an object, and a cycle that has made so many steps. */
static __attribute__((noinline)) GC_word begin_chain(int nodes, int steps)
{
    GC_word hidden = make_chain(nodes);
    newest = NULL;
    chain_end = (void **)GC_HIDE_POINTER(chain_end);
    GC_gcollect();
    free_atomics();
    clear_stack();
    GC_start_incremental_collection();
    for (int k = 0; k < steps; k++) GC_collect_a_little();
    chain_end = GC_REVEAL_POINTER(chain_end);
    return hidden;
}

/* The same, where the page of the chain's start is written to after it was closed and before the cycle begins, and with each step since:
 * so it is open from the beginning on. Pages are closed in several steps, since pointer-free objects had many. */
static __attribute__((noinline)) GC_word begin_open(int nodes, int steps)
{
    GC_word hidden = make_chain(nodes);
    newest = NULL;
    chain_end = (void **)GC_HIDE_POINTER(chain_end);
    GC_gcollect();
    free_atomics();
    clear_stack();
    while (!GC_collect_a_little()) GC_malloc_atomic(1000);
    for (int k = 0; k < steps; k++) {
        chain_start[6] = NULL;
        GC_collect_a_little();
    }
    chain_end = GC_REVEAL_POINTER(chain_end);
    return hidden;
}

static int is_kept(GC_word hidden)
{
    clear_stack();
    end();
    return GC_base(GC_REVEAL_POINTER(hidden)) == GC_REVEAL_POINTER(hidden);
}

static __attribute__((noinline)) void walk(int nodes)
{
    int at = nodes;
    for (int k = 0; k < 60; k++) {
        int to = at * 7 % (nodes + 1);
        move_on(at, to);
        at = to;
        GC_collect_a_little();
        clear_stack();
        for (int other = 0; other < nodes; other += 20) node(other)[6] = NULL; /* these pages are written again and again */
    }
}

/* To be called first: were much else reached, by stray words even, the marker might come to it first, or make its pages dirty. */
static void hidden_pointers(void)
{
    for (int steps = 0; steps < 40; steps++) {
        GC_word hidden = begin_chain(500 + 10 * steps, steps);
        move_to_start();
        CHECK(is_kept(hidden));
        hidden = begin_open(500 + 10 * steps, steps);
        move_to_start();
        CHECK(is_kept(hidden));
        hidden = begin_chain(500 + 10 * steps, steps);
        move_to_new();
        CHECK(is_kept(hidden));
        hidden = begin_chain(500 + 10 * steps, steps);
        move_to_new_among();
        CHECK(is_kept(hidden));
        hidden = begin_chain(500 + 10 * steps, 1);
        walk(500 + 10 * steps);
        CHECK(is_kept(hidden));
    }
    chain_start = chain_end = newest = NULL;
}

/* Many hidden pointers at once: each node of a chain names an object of its own. When a cycle has read the roots, static data take them from
 * the nodes, so that these pages are open and nothing else names them; and behind so many steps, whatever those were, nodes or new objects
 * get them. So wherever pages are read again, or the core has written to them, the next to write to them is the program. */
enum { SECRETS = 200, PAGE_BYTES = 4096 };
static void *volatile taken[SECRETS];
static void **volatile made[SECRETS];
static GC_word secrets[SECRETS];

/* Between any two nodes a cell is free. */
static __attribute__((noinline)) void make_secrets(void)
{
    void **last = NULL;
    chain_start = chain_end = newest = NULL;
    for (int k = 0; k < SECRETS; k++) {
        void **one = GC_malloc(200);
        made[k] = GC_malloc(200);
        one[5] = GC_malloc_atomic(90);
        secrets[k] = GC_HIDE_POINTER(one[5]);
        if (last)
            last[0] = one;
        else
            chain_start = one;
        last = one;
    }
    for (int k = 0; k < SECRETS; k++) made[k] = NULL;
}

/* Of all nodes, or of those on every other page. */
static __attribute__((noinline)) void take_secrets(int each)
{
    void **one = chain_start;
    for (int k = 0; k < SECRETS; k++, one = one[0]) {
        if ((GC_word)one / PAGE_BYTES % (GC_word)each != 0) continue;
        taken[k] = one[5];
        one[5] = NULL;
    }
}

static __attribute__((noinline)) void give_secrets(int to_new)
{
    void **one = chain_start;
    for (int k = 0; k < SECRETS; k++, one = one[0]) {
        if (!taken[k]) continue;
        void **to = one;
        if (to_new) to = made[k] = GC_malloc(200);
        to[5] = taken[k];
        taken[k] = NULL;
    }
}

/* Answers whether the cycle still marked behind so many steps. */
static int go_secrets(int steps, int each, int to_new)
{
    int goes_on = 1, kept = 0;
    make_secrets();
    clear_stack();
    GC_gcollect();
    clear_stack();
    GC_start_incremental_collection();
    take_secrets(each);
    clear_stack();
    for (int k = 0; k < steps && goes_on; k++) goes_on = GC_collect_a_little();
    give_secrets(to_new);
    clear_stack();
    end();
    for (int k = 0; k < SECRETS; k++) kept += GC_base(GC_REVEAL_POINTER(secrets[k])) == GC_REVEAL_POINTER(secrets[k]);
    CHECK(kept == SECRETS);
    for (int k = 0; k < SECRETS; k++) made[k] = NULL;
    return goes_on;
}

static void many_hidden_pointers(void)
{
    for (int way = 0; way < 4; way++)
        for (int steps = 0; steps < 40 && go_secrets(steps, 1 + way % 2, way / 2); steps++) continue;
    chain_start = NULL;
}

static void children(void)
{
    begin();
    CHECK(status_of(child_goes_on) == 0);
    CHECK(child_goes_on() == 0);
}

int main(void)
{
    signal(SIGSEGV, on_fault_plain);
    GC_INIT();
    GC_enable_incremental();
    hidden_pointers();
    many_hidden_pointers();
    foreign_faults();
    keeps_errno();
#ifdef WITHOUT_SYSCALLS
    CHECK(stops_with(second_asks, "nobody told of"));
    CHECK(stops_with(second_writes, "nobody told of"));
#else
    CHECK(status_of(second_goes_on) == 0);
    CHECK(status_of(another_opened_it) == 0);
#endif
    CHECK(stops_with(on_other_stack, "on another stack"));
    handlers_write();
    children();
    return check_ends();
}
