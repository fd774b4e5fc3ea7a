/* Objects that one root alone names: each is there after a collection, in full ones and in small steps; and what an atomic object
 * alone names is gone. */
#define _GNU_SOURCE
#define GC_THREADS
#include <pthread.h>
#include <stdint.h>
#include "gc.h"
#include "check.h"
#include "states.h"

#define NOINLINE __attribute__((noinline))
enum { MAGIC = 0x5eed, SIZE = 48 }; /* of a size class, so that one byte past it is another cell's */

/* Collects while nothing but the named register has the address. */
#define HOLD_IN(reg) \
    GC_word hold_in_##reg(GC_word hidden); \
    __asm__(".text\n.globl hold_in_" #reg "\n.type hold_in_" #reg ", @function\nhold_in_" #reg ":\n" \
            "\tpushq %" #reg "\n\tmovq %rdi, %" #reg "\n\tnotq %" #reg "\n\txorl %edi, %edi\n\txorl %eax, %eax\n" \
            "\tcall collect_now\n\tmovq %" #reg ", %rax\n\tnotq %rax\n\tpopq %" #reg "\n\tret\n" \
            ".size hold_in_" #reg ", .-hold_in_" #reg "\n")
HOLD_IN(rbx);
HOLD_IN(rbp);
HOLD_IN(r12);
HOLD_IN(r13);
HOLD_IN(r14);
HOLD_IN(r15);

/* Things of other sorts are asked for, so that a cell that was lost is given to someone else. */
static NOINLINE void ask_for_others(void)
{
    for (int k = 0; k < 3000; k++) {
        char *other = GC_malloc_atomic(SIZE);
        memset(other, 0xee, SIZE);
        uint64_t *like = GC_malloc(SIZE);
        like[0] = 1;
    }
}

static NOINLINE void clear_stack(void)
{
    char old[30000];
    explicit_bzero(old, sizeof old);
}

void collect_now(void);
void collect_now(void)
{
    clear_stack();
    if (GC_is_incremental_mode()) {
        GC_start_incremental_collection();
        while (GC_collect_a_little()) continue;
    } else {
        GC_gcollect();
    }
    ask_for_others();
}

static NOINLINE void *make(void)
{
    uint64_t *object = GC_malloc(SIZE);
    object[0] = MAGIC;
    object[4] = ~(uint64_t)(uintptr_t)object;
    return object;
}

static NOINLINE GC_word make_hidden(void) { return GC_HIDE_POINTER(make()); }

static NOINLINE int is_whole(GC_word hidden)
{
    uint64_t *object = GC_REVEAL_POINTER(hidden);
    return GC_base(object) == object && object[0] == MAGIC && object[4] == ~(uint64_t)(uintptr_t)object;
}

static NOINLINE void registers(void)
{
    CHECK(is_whole(hold_in_rbx(make_hidden())));
    CHECK(is_whole(hold_in_rbp(make_hidden())));
    CHECK(is_whole(hold_in_r12(make_hidden())));
    CHECK(is_whole(hold_in_r13(make_hidden())));
    CHECK(is_whole(hold_in_r14(make_hidden())));
    CHECK(is_whole(hold_in_r15(make_hidden())));
}

/* Volatile, so that they are stored though nobody reads them. */
static void *volatile in_static, *volatile inner_static, *volatile past_static;
static struct { char before[5000]; void *volatile at; } in_large_static;
static _Thread_local void *volatile in_thread;
static _Thread_local struct { char before[3000]; void *volatile at; } in_large_thread;

static NOINLINE void one_each(void *volatile *on_stack, void **in_added, void ***in_uncollectable, GC_word hidden[9])
{
    char *inner = make(), *past = make();
    in_static = make();
    inner_static = inner + 13;
    past_static = past + SIZE;
    in_large_static.at = make();
    in_thread = make();
    in_large_thread.at = make();
    *on_stack = make();
    *in_added = make();
    *in_uncollectable = GC_malloc_uncollectable(64);
    (*in_uncollectable)[3] = make();
    GC_word all[9] = { GC_HIDE_POINTER(in_static), GC_HIDE_POINTER(inner), GC_HIDE_POINTER(past), GC_HIDE_POINTER(in_large_static.at),
                       GC_HIDE_POINTER(in_thread), GC_HIDE_POINTER(in_large_thread.at), GC_HIDE_POINTER(*on_stack),
                       GC_HIDE_POINTER(*in_added), GC_HIDE_POINTER((*in_uncollectable)[3]) };
    memcpy(hidden, all, sizeof all);
    memset(all, 0, sizeof all);
    in_uncollectable[0] = (void **)GC_HIDE_POINTER(in_uncollectable[0]);
}

static NOINLINE void places(void)
{
    static const char *const names[9] = { "static data", "inner pointer", "past the end", "large static data", "thread-local data",
                                          "large thread-local data", "stack", "added range", "uncollectable object" };
    void *volatile on_stack = NULL;
    void **added = malloc(100 * sizeof *added);
    void **kept;
    GC_word hidden[9];
    GC_add_roots(added, added + 100);
    one_each(&on_stack, added + 99, &kept, hidden);
    collect_now();
    for (int k = 0; k < 9; k++) check_that(names[k], is_whole(hidden[k]));
    CHECK(on_stack != NULL);
    GC_free(GC_REVEAL_POINTER((GC_word)kept));
    GC_remove_roots(added, added + 100);
    free(added);
}

/* 30,000 frames, each with an object that nobody else has. */
static NOINLINE int deep(int frames)
{
    uint64_t *volatile mine = GC_malloc(16);
    mine[0] = (uint64_t)frames;
    int below = 0;
    if (frames == 0)
        collect_now();
    else
        below = deep(frames - 1);
    return below + (GC_base(mine) == mine && mine[0] == (uint64_t)frames);
}

static void **atomic_holders[300];
static GC_word gone[300];

static NOINLINE void hide_in_atomic(void)
{
    for (int k = 0; k < 300; k++) {
        atomic_holders[k] = GC_malloc_atomic(40);
        atomic_holders[k][2] = make();
        gone[k] = GC_HIDE_POINTER(atomic_holders[k][2]);
    }
}

static NOINLINE void atomics(void)
{
    int left = 0;
    hide_in_atomic();
    clear_stack();
    GC_gcollect();
    for (int k = 0; k < 300; k++) left += is_whole(gone[k]);
    CHECK(left < 30);
    for (int k = 0; k < 300; k++) CHECK(GC_base(atomic_holders[k]) == atomic_holders[k]);
    memset(atomic_holders, 0, sizeof atomic_holders);
}

/* What dead functions left just below is gone behind a request: a program that copies a struct of which it has filled a part puts it into an
 * object. Answers in how many of four words it is still there. */
GC_word left_below(GC_word word, void *(*request)(size_t bytes));
__asm__(".text\n.globl left_below\n.type left_below, @function\nleft_below:\n"
        "\tpushq %rbx\n\tmovq %rdi, -24(%rsp)\n\tmovq %rdi, -32(%rsp)\n\tmovq %rdi, -40(%rsp)\n\tmovq %rdi, -48(%rsp)\n"
        "\tnotq %rdi\n\tmovq %rdi, %rbx\n\tmovl $48, %edi\n\tcall *%rsi\n\tnotq %rbx\n\txorl %eax, %eax\n"
        "\tcmpq %rbx, -24(%rsp)\n\tjne 1f\n\tincl %eax\n1:\tcmpq %rbx, -32(%rsp)\n\tjne 2f\n\tincl %eax\n"
        "2:\tcmpq %rbx, -40(%rsp)\n\tjne 3f\n\tincl %eax\n3:\tcmpq %rbx, -48(%rsp)\n\tjne 4f\n\tincl %eax\n4:\tpopq %rbx\n\tret\n"
        ".size left_below, .-left_below\n");
static void *ask_for_nothing(size_t bytes)
{
    (void)bytes;
    return NULL;
}
static NOINLINE void dead_words(void)
{
    GC_word left = 0;
    for (int k = 0; k < 100; k++) left += left_below(MAGIC, GC_malloc) + left_below(MAGIC, GC_malloc_atomic);
    CHECK(left == 0);
    CHECK(left_below(MAGIC, ask_for_nothing) == 4);
}

/* Who clears the table of added ranges waits for one that has the lock, since that one may be adding some. */
static _Atomic int clears, may_clear, begins, has_cleared;
static void *clear_roots(void *data)
{
    clears = gettid();
    while (!may_clear) sched_yield();
    begins = 1;
    GC_clear_roots();
    has_cleared = 1;
    return data;
}
static void *await_clearing(void *data)
{
    may_clear = 1;
    while (!has_cleared && !(begins && is_asleep(clears))) sched_yield();
    return has_cleared ? NULL : data;
}
static void cleared_by_another(void)
{
    pthread_t thread;
    if (pthread_create(&thread, NULL, clear_roots, NULL) != 0) abort();
    while (!clears) sched_yield();
    CHECK(GC_call_with_alloc_lock(await_clearing, &thread) == &thread);
    pthread_join(thread, NULL);
    CHECK(has_cleared);
}

int main(void)
{
    GC_INIT();
    if (getenv("INCREMENTAL")) GC_enable_incremental();
    registers();
    places();
    CHECK(deep(30000) == 30001);
    atomics();
    dead_words();
    CHECK(deep(100) == 101);
    cleared_by_another();
    return check_ends();
}
