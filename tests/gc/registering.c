/* What a program says of its threads, against bdwgc's documented meaning, and over bdwgc (OTHER) too. */
#define _GNU_SOURCE
#define GC_THREADS
#define GC_NO_THREAD_REDIRECTS
#include <dlfcn.h>
#include <pthread.h>
#include <sched.h>
#include <semaphore.h>
#include <signal.h>
#include <stdint.h>
#include <time.h>
#include "gc.h"
#include "check.h"
#include "states.h"

struct node { struct node *next; uint64_t value; };
static sem_t at_rest, may_go;
static int (*others_create)(pthread_t *, const pthread_attr_t *, void *(*)(void *), void *);

static struct node *list_of(uint64_t seed, int length)
{
    struct node *head = NULL;
    for (int k = 0; k < length; k++) {
        struct node *node = GC_malloc(sizeof *node);
        node->value = seed + (uint64_t)k;
        node->next = head;
        head = node;
    }
    return head;
}
static int is_list(const struct node *node, uint64_t seed, int length)
{
    for (; node; node = node->next)
        if (node->value != seed + (uint64_t)--length) return 0;
    return length == 0;
}
static void collect(void)
{
    for (int k = 0; k < 3; k++) {
        GC_gcollect();
        for (int j = 0; j < 3000; j++) list_of(1, 1);
    }
}

/* A thread that the program hasn't told of, whether the library has seen it made or not. */
static void *unknown(void *data)
{
    struct GC_stack_base base;
    CHECK(!GC_thread_is_registered());
    CHECK(GC_get_stack_base(&base) == GC_SUCCESS);
    CHECK((char *)base.mem_base > (char *)&base);
    CHECK(GC_register_my_thread(&base) == GC_SUCCESS);
    CHECK(GC_thread_is_registered());
    CHECK(GC_register_my_thread(&base) == GC_DUPLICATE);
    struct node *list = list_of(5, 1000);
    sem_post(&at_rest);
    sem_wait(&may_go);
    CHECK(is_list(list, 5, 1000));
    CHECK(GC_unregister_my_thread() == GC_SUCCESS);
    CHECK(!GC_thread_is_registered());
    return data;
}
static void registering(int (*create)(pthread_t *, const pthread_attr_t *, void *(*)(void *), void *))
{
    pthread_t thread;
    CHECK(GC_thread_is_registered());
    create(&thread, NULL, unknown, NULL);
    sem_wait(&at_rest);
    collect();
    sem_post(&may_go);
    pthread_join(thread, NULL);
    collect();
}

/* A signal comes to a thread that waits to be registered, and its handler makes a request. */
static _Atomic int is_coming, was_handled;
static struct node *volatile of_handler;
static void make_one(int number)
{
    (void)number;
    of_handler = list_of(11, 1);
    was_handled = 1;
}
static void *come(void *data)
{
    struct GC_stack_base base;
    GC_get_stack_base(&base);
    is_coming = 1;
    CHECK(GC_register_my_thread(&base) == GC_SUCCESS);
    while (!was_handled) sched_yield();
    struct node *list = list_of(13, 500);
    sem_post(&at_rest);
    sem_wait(&may_go);
    CHECK(is_list(list, 13, 500));
    CHECK(GC_unregister_my_thread() == GC_SUCCESS);
    return data;
}
static void *make_and_signal(void *thread)
{
    static const struct timespec moment = { 0, 50000000 };
    others_create(thread, NULL, come, NULL);
    while (!is_coming) sched_yield();
    nanosleep(&moment, NULL);
    pthread_kill(*(pthread_t *)thread, SIGUSR1);
    nanosleep(&moment, NULL);
    return thread;
}
static void handling(void)
{
    pthread_t thread;
    signal(SIGUSR1, make_one);
    CHECK(GC_call_with_alloc_lock(make_and_signal, &thread) == &thread);
    sem_wait(&at_rest);
    collect();
    CHECK(is_list(of_handler, 11, 1));
    sem_post(&may_go);
    pthread_join(thread, NULL);
    collect();
}

/* What a thread answers that has told that it goes, and has come again, stays until it is asked for. */
static _Atomic pid_t coming_again;
static void *comes_again(void *data)
{
    struct GC_stack_base base;
    (void)data;
    GC_get_stack_base(&base);
    CHECK(GC_unregister_my_thread() == GC_SUCCESS);
    CHECK(GC_register_my_thread(&base) == GC_SUCCESS && GC_thread_is_registered());
    coming_again = gettid();
    return list_of(17, 1000);
}
static void answers(void)
{
    pthread_t thread;
    void *answer = NULL;
    struct said said;
    GC_pthread_create(&thread, NULL, comes_again, NULL);
    while (coming_again == 0 || *said_of(coming_again, "stat", ") ", &said)) sched_yield();
    collect();
    GC_pthread_join(thread, &answer);
    CHECK(is_list(answer, 17, 1000));
}

/* Blocked, and active in between. */
static void *active(void *data)
{
    struct node *list = list_of(8, 500);
    sem_post(&at_rest);
    sem_wait(&may_go);
    CHECK(is_list(list, 8, 500));
    return data;
}
static void *blocking(void *data)
{
    sem_post(&at_rest);
    sem_wait(&may_go);
    CHECK(GC_call_with_gc_active(active, data) == data);
    sem_post(&at_rest);
    sem_wait(&may_go);
    return data;
}
static void *blocks(void *data)
{
    struct node *list = list_of(3, 1000);
    CHECK(GC_do_blocking(blocking, data) == data);
    CHECK(is_list(list, 3, 1000));
    return data;
}
static void do_blocking(void)
{
    pthread_t thread;
    GC_pthread_create(&thread, NULL, blocks, &thread);
    for (int k = 0; k < 3; k++) {
        sem_wait(&at_rest);
        collect();
        sem_post(&may_go);
    }
    GC_pthread_join(thread, NULL);
}

#ifndef OTHER
/* In a child the other threads aren't there, and what their stacks alone named goes. */
enum { HELD = 50 };
static GC_hidden_pointer held[HELD];
static void *waits(void *data)
{
    sem_post(&at_rest);
    sem_wait(&may_go);
    return data;
}
static void *holds(void *data)
{
    void *volatile objects[HELD];
    for (int k = 0; k < HELD; k++) {
        objects[k] = GC_malloc(200);
        held[k] = GC_HIDE_POINTER(objects[k]);
    }
    GC_do_blocking(waits, NULL);
    for (int k = 0; k < HELD; k++) CHECK(GC_base(objects[k]) == objects[k]);
    return data;
}
static int kept(void)
{
    int count = 0;
    for (int k = 0; k < HELD; k++) count += GC_base(GC_REVEAL_POINTER(held[k])) != NULL;
    return count;
}
static int in_child(void)
{
    GC_gcollect();
    return kept() < 5 ? 0 : 1;
}
static void children(void)
{
    pthread_t thread;
    GC_pthread_create(&thread, NULL, holds, NULL);
    sem_wait(&at_rest);
    collect();
    CHECK(kept() == HELD);
    CHECK(status_of(in_child) == 0);
    sem_post(&may_go);
    GC_pthread_join(thread, NULL);
}
#endif

/* With the lock, and the stack's base. */
static int is_locked;
static void *locked(void *data)
{
    is_locked++;
    return data;
}
static void *with_base(struct GC_stack_base *base, void *data)
{
    CHECK((char *)base->mem_base > (char *)&data);
    return data;
}
static void calls(void)
{
    CHECK(GC_call_with_alloc_lock(locked, &is_locked) == &is_locked && is_locked == 1);
    CHECK(GC_call_with_stack_base(with_base, &is_locked) == &is_locked);
}

/* Finalizers while several threads collect. */
static _Atomic int finalized, wrong;
static void check_list(void *object, void *data)
{
    wrong += !is_list(((struct node *)object)->next, (uintptr_t)data, 20);
    finalized++;
}
static void *make_finalizable(void *data)
{
    for (int k = 0; k < 3000; k++) {
        struct node *node = GC_malloc(sizeof *node);
        node->next = list_of((uintptr_t)data, 20);
        GC_register_finalizer(node, check_list, data, NULL, NULL);
    }
    return NULL;
}
static void finalizers(void)
{
    pthread_t all[4];
    for (uintptr_t k = 0; k < 4; k++) GC_pthread_create(&all[k], NULL, make_finalizable, (void *)(k * 1000));
    for (int k = 0; k < 4; k++) GC_pthread_join(all[k], NULL);
    for (int k = 0; k < 3; k++) {
        GC_gcollect();
        GC_invoke_finalizers();
    }
    CHECK(wrong == 0);
    CHECK(finalized >= 11900);
    if (finalized < 11900) printf("  %d finalized\n", finalized);
}

/* On demand the program is told once behind a collection, whatever threads make requests then. */
static _Atomic int notified;
static void notify(void) { notified++; }
static void *ask_for_many(void *data)
{
    list_of(1, 3000);
    return data;
}
static void notifier(void)
{
    pthread_t all[4];
    GC_set_finalize_on_demand(1);
    make_finalizable((void *)1);
    GC_gcollect();
    GC_disable();
    GC_set_finalizer_notifier(notify);
    ask_for_many(NULL);
    for (int k = 0; k < 4; k++) GC_pthread_create(&all[k], NULL, ask_for_many, NULL);
    for (int k = 0; k < 4; k++) GC_pthread_join(all[k], NULL);
    CHECK(GC_should_invoke_finalizers() && notified <= 1);
    GC_enable();
    GC_gcollect();
    ask_for_many(NULL);
    CHECK(notified >= 1);
    GC_set_finalizer_notifier(0);
    GC_set_finalize_on_demand(0);
    GC_invoke_finalizers();
}

/* The program is told of each stop, and of each thread that stops. */
static pthread_t watched;
static int suspended, went_on, is_in_order = 1, stops, starts;
static void note_thread(GC_EventType event, void *thread)
{
    if (!pthread_equal((pthread_t)thread, watched)) return;
    suspended += event == GC_EVENT_THREAD_SUSPENDED;
    went_on += event == GC_EVENT_THREAD_UNSUSPENDED;
    is_in_order &= suspended - went_on == (event == GC_EVENT_THREAD_SUSPENDED);
}
static void note_stop(GC_EventType event)
{
    stops += event == GC_EVENT_POST_STOP_WORLD;
    starts += event == GC_EVENT_PRE_START_WORLD;
    if (event == GC_EVENT_PRE_STOP_WORLD || event == GC_EVENT_POST_START_WORLD) is_in_order &= stops == starts && suspended == went_on;
    if (event == GC_EVENT_POST_STOP_WORLD || event == GC_EVENT_PRE_START_WORLD) is_in_order &= suspended == went_on + 1;
}
static void *wait_in_between(void *data)
{
    struct GC_stack_base base;
    GC_get_stack_base(&base);
    GC_register_my_thread(&base);
    watched = pthread_self();
    sem_post(&at_rest);
    sem_wait(&may_go);
    GC_unregister_my_thread();
    return data;
}
static void events(void)
{
    pthread_t thread;
    others_create(&thread, NULL, wait_in_between, NULL);
    sem_wait(&at_rest);
    GC_set_on_thread_event(note_thread);
    GC_set_on_collection_event(note_stop);
    CHECK(GC_get_on_thread_event() == note_thread);
    GC_gcollect();
    GC_set_on_thread_event(0);
    GC_set_on_collection_event(0);
    sem_post(&may_go);
    pthread_join(thread, NULL);
    CHECK(suspended > 0 && stops > 0 && is_in_order);
    CHECK(suspended == went_on && stops == starts);
}

int main(void)
{
    void *found = dlsym(dlopen("libc.so.6", RTLD_NOW), "pthread_create");
    memcpy(&others_create, &found, sizeof others_create);
    sem_init(&at_rest, 0, 0);
    sem_init(&may_go, 0, 0);
    GC_INIT();
    if (getenv("INCREMENTAL")) GC_enable_incremental();
    GC_allow_register_threads();
    registering(others_create);
    registering(pthread_create);
    handling();
    answers();
    do_blocking();
    events();
#ifndef OTHER
    children();
#endif
    calls();
    finalizers();
    notifier();
    return check_ends();
}
