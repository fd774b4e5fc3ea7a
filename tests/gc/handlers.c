/* Handlers on a stack for signals, that collect there, or are there while another thread does: what they have lies on that stack, and what the
 * thread had before on its own, or on one of the program's. */
#define _GNU_SOURCE
#define GC_THREADS
#include <pthread.h>
#include <signal.h>
#include <stdint.h>
#include <sys/mman.h>
#include <time.h>
#include <ucontext.h>
#include "gc.h"
#include "check.h"
#include "watch.h"

enum { LENGTH = 300, BYTES = 1 << 18, GUARD = 4096 };
struct node { struct node *next; uint64_t value; };

static _Atomic int lost, stage, collected;

static struct node *list_of(uint64_t seed)
{
    struct node *head = NULL;
    for (int k = 0; k < LENGTH; k++) {
        struct node *node = GC_malloc(sizeof *node);
        node->value = seed + (uint64_t)k;
        node->next = head;
        head = node;
    }
    return head;
}

static void check_list(const struct node *node, uint64_t seed)
{
    int length = LENGTH;
    for (; node && length > 0 && node->value == seed + (uint64_t)length - 1; node = node->next) length--;
    lost += length != 0 || node;
}

static void collect_often(void)
{
    for (int k = 0; k < 3; k++) {
        GC_gcollect();
        list_of(1);
    }
}

static void wait_for(_Atomic int *number, int least)
{
    static const struct timespec moment = { 0, 100000 };
    while (*number < least) nanosleep(&moment, NULL);
}

/* The handler's work, on a stack for signals. */
static void (*work)(void);
static void on_signal(int number)
{
    (void)number;
    struct node *volatile mine = list_of(2);
    work();
    check_list(mine, 2);
}
static void handle(void)
{
    stack_t alt = { .ss_sp = malloc(BYTES), .ss_size = BYTES }, none = { .ss_flags = SS_DISABLE };
    if (!alt.ss_sp || sigaltstack(&alt, NULL) != 0) abort();
    struct node *volatile mine = list_of(3);
    pthread_kill(pthread_self(), SIGUSR1);
    check_list(mine, 3);
    sigaltstack(&none, NULL);
    free(alt.ss_sp);
}

/* It waits in a call that blocks, but for a moment, when it may be stopped. */
static void *wait_active(void *data)
{
    stage = 1;
    wait_for(&collected, 1);
    return data;
}
static void *wait_blocked(void *data)
{
    GC_call_with_gc_active(wait_active, data);
    stage = 2;
    wait_for(&collected, 2);
    return data;
}
static void block(void) { GC_do_blocking(wait_blocked, NULL); }

/* The same on a stack of the thread's own, below which nothing can be read. */
static void *handle_there(void *data)
{
    handle();
    return data;
}
static __thread ucontext_t outside, inside;
static void go_inside(void)
{
    GC_alloc_unlock();
    handle();
    GC_alloc_lock();
}
static void *handle_elsewhere(void *data)
{
    struct GC_stack_base base, own;
    char *low = mmap(NULL, BYTES, PROT_READ | PROT_WRITE, MAP_PRIVATE | MAP_ANONYMOUS, -1, 0);
    if (low == MAP_FAILED || mprotect(low, GUARD, PROT_NONE) != 0) abort();
    void *handle_of_thread = GC_get_my_stackbottom(&own);
    getcontext(&inside);
    inside.uc_stack = (stack_t){ .ss_sp = low + GUARD, .ss_size = BYTES - GUARD };
    inside.uc_link = &outside;
    makecontext(&inside, go_inside, 0);
    base.mem_base = low + BYTES;
    GC_alloc_lock();
    GC_set_stackbottom(handle_of_thread, &base);
    swapcontext(&outside, &inside);
    GC_set_stackbottom(handle_of_thread, &own);
    GC_alloc_unlock();
    munmap(low, BYTES);
    return data;
}

/* Another thread collects in each stage of the blocked one, which may have a stack that the program gave. */
static const pthread_attr_t *attributes;
static void in_thread(void *(*body)(void *), void (*in_handler)(void))
{
    pthread_t thread;
    work = in_handler;
    stage = collected = 0;
    if (GC_pthread_create(&thread, attributes, body, NULL) != 0) abort();
    for (int k = 1; in_handler == block && k <= 2; k++) {
        wait_for(&stage, k);
        collect_often();
        collected = k;
    }
    GC_pthread_join(thread, NULL);
}

/* It begins in the middle of a page. */
static void on_stacks_of_malloc(void)
{
    pthread_attr_t of_malloc;
    char *stack = malloc(2 * BYTES);
    pthread_attr_init(&of_malloc);
    if (!stack || pthread_attr_setstack(&of_malloc, (char *)(((uintptr_t)stack + GUARD) & ~(uintptr_t)(GUARD - 1)) + 48, BYTES) != 0) abort();
    attributes = &of_malloc;
    for (int k = 0; k < 10; k++) in_thread(handle_there, collect_often);
    for (int k = 0; k < 10; k++) in_thread(handle_there, block);
    attributes = NULL;
    pthread_attr_destroy(&of_malloc);
    free(stack);
}

int main(void)
{
    struct sigaction action = { .sa_handler = on_signal, .sa_flags = SA_ONSTACK | SA_RESTART };
    pid_t watcher = watch(300);
    GC_INIT();
    if (sigaction(SIGUSR1, &action, NULL) != 0) abort();
    work = collect_often;
    for (int k = 0; k < 10; k++) handle();
    CHECK(lost == 0);
    for (int k = 0; k < 10; k++) in_thread(handle_there, collect_often);
    CHECK(lost == 0);
    for (int k = 0; k < 10; k++) in_thread(handle_there, block);
    CHECK(lost == 0);
    for (int k = 0; k < 10; k++) in_thread(handle_elsewhere, collect_often);
    CHECK(lost == 0);
    for (int k = 0; k < 10; k++) in_thread(handle_elsewhere, block);
    CHECK(lost == 0);
    on_stacks_of_malloc();
    CHECK(lost == 0);
    kill(watcher, SIGKILL);
    return check_ends();
}
