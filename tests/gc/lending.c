/* Writes to closed pages by who has a lock of the C library's, or of a malloc of the program's own, for which the thread waits that has the library's
 * lock: it lends that meanwhile. */
#define _GNU_SOURCE
#define GC_THREADS
#include <fcntl.h>
#include <poll.h>
#include <pthread.h>
#include <sched.h>
#include <signal.h>
#include <stdint.h>
#include <sys/mman.h>
#include <sys/syscall.h>
#include "gc.h"
#include <gc/gc_typed.h>
#include "beside.h"
#include "check.h"
#include "states.h"
#include "watch.h"

/* This malloc has a lock. A handler of the program comes in the middle of its call by one thread, while the first one is in its `at_call`th, of what it
 * has the library do. */
extern void *__libc_malloc(size_t bytes), *__libc_calloc(size_t count, size_t bytes), *__libc_realloc(void *had, size_t bytes);
extern void __libc_free(void *had);
static pthread_mutex_t of_malloc = PTHREAD_MUTEX_INITIALIZER;
static _Thread_local int is_first, is_interrupted;
static int calls, at_call;
static _Atomic int stage;
static char **places;
static void (*asks_in_malloc)(void);
static void take(void)
{
    if (is_first && ++calls == at_call) {
        *(volatile char *)places[1] = 1; /* a closed page too: it doesn't end the loan */
        for (stage = 1; stage == 1;) sched_yield();
    }
    if (is_first && asks_in_malloc) asks_in_malloc();
    pthread_mutex_lock(&of_malloc);
    if (!is_interrupted) return;
    is_interrupted = 0;
    stage = 2;
    raise(SIGUSR1);
}
#define LOCKED(answer, name, words, values) \
    answer name words \
    { \
        take(); \
        answer made = __libc_##name values; \
        pthread_mutex_unlock(&of_malloc); \
        return made; \
    }
LOCKED(void *, malloc, (size_t bytes), (bytes))
LOCKED(void *, calloc, (size_t count, size_t bytes), (count, bytes))
LOCKED(void *, realloc, (void *had, size_t bytes), (had, bytes))
void free(void *had)
{
    take();
    __libc_free(had);
    pthread_mutex_unlock(&of_malloc);
}

/* What the handler writes to: on a page that is closed when it comes. */
enum { PLACES = 400, BYTES = 2000 };
static _Atomic int written;
static FILE *stream;
static int zeros;
static char *place(void) { return places[PLACES / 2]; }
static void write_there(int number)
{
    *(volatile char *)place() = (char)number;
    written++;
}
static int closes_page(void)
{
    enum { TRIES = 100 };
    for (int k = 0; k < TRIES && !is_closed(place()); k++) {
        while (GC_collect_a_little()) continue;
        GC_start_incremental_collection();
    }
    return is_closed(place());
}

static _Atomic int is_there;
static void *call_malloc(void *data)
{
    for (is_there = 1; stage != 3;) {
        if (stage != 1) {
            sched_yield();
            continue;
        }
        is_interrupted = 1;
        void *volatile some = malloc(16);
        free(some);
    }
    return data;
}

/* Each call of malloc that this makes is tried, in the order in which they are made. */
static int each_call_of(void (*way)(void))
{
    int last = 0, tried = 0;
    for (at_call = 1; last + 1 == at_call || at_call == 1; at_call++) {
        pthread_t thread;
        int before = written;
        stage = is_there = 0;
        if (pthread_create(&thread, NULL, call_malloc, NULL) != 0) return 1;
        while (!is_there) sched_yield();
        if (!closes_page()) return 4;
        calls = 0;
        is_first = 1;
        way();
        is_first = 0;
        stage = 3;
        if (pthread_join(thread, NULL) != 0) return 2;
        if (calls >= at_call) last = at_call;
        tried += written - before;
    }
    return tried == last && last > 0 ? 0 : 3;
}

static void make_places(void)
{
    GC_enable_incremental();
    places = GC_malloc(PLACES * sizeof *places);
    for (int k = 0; k < PLACES; k++) places[k] = GC_malloc(BYTES);
    stream = fopen("/dev/null", "w");
    zeros = open("/dev/zero", O_RDONLY);
}

static void *word;
static void by_a_link(void)
{
    void *object = GC_malloc(16);
    GC_general_register_disappearing_link(&word, object);
    GC_unregister_disappearing_link(&word);
}
static void by_many_links(void)
{
    static void *words[1000];
    static int next;
    for (int k = 0; k < 80; k++, next = (next + 1) % 1000) GC_register_long_link(&words[next], places[k]);
}
static void finalize(void *object, void *data)
{
    (void)object;
    (void)data;
}
static void by_finalizers(void)
{
    for (int k = 0; k < 80; k++) GC_register_finalizer(GC_malloc(16), finalize, NULL, NULL, NULL);
}
static void by_roots(void)
{
    static char roots[1000][8];
    static int next;
    for (int k = 0; k < 20; k++, next = (next + 1) % 1000) GC_add_roots(roots[next], roots[next] + 8);
}
static void by_typed_objects(void)
{
    GC_word bits = 1;
    for (int k = 0; k < 70; k++) (void)GC_malloc_explicitly_typed(64, GC_make_descriptor(&bits, 8));
}
static void *answer(void *data) { return data; }
static void by_a_thread(void) /* whose stack is a new one */
{
    static size_t megabytes = 16;
    pthread_t thread;
    pthread_attr_t attributes;
    pthread_attr_init(&attributes);
    pthread_attr_setstacksize(&attributes, ++megabytes << 20);
    if (pthread_create(&thread, &attributes, answer, NULL) == 0) pthread_join(thread, NULL);
    pthread_attr_destroy(&attributes);
}

static int of(void (*way)(void))
{
    signal(SIGUSR1, write_there);
    make_places();
    return each_call_of(way);
}
#define OF(way) static int of_##way(void) { return of(way); }
OF(by_a_link)
OF(by_many_links)
OF(by_finalizers)
OF(by_roots)
OF(by_typed_objects)
OF(by_a_thread)

/* A malloc that takes the library's lock itself ends the loan: who writes waits then. */
static pid_t writer;
static int written_meanwhile;
static void *write_when_told(void *data)
{
    writer = gettid();
    for (is_there = 1; stage < 1;) sched_yield();
    write_there(0);
    return data;
}
static void ask_once_more(void)
{
    asks_in_malloc = NULL;
    GC_alloc_lock();
    for (stage = 1; !is_asleep(writer) && !written;) sched_yield();
    written_meanwhile = written;
    GC_alloc_unlock();
}
static int asks_while_it_is_lent(void)
{
    pthread_t thread;
    make_places();
    if (!closes_page() || pthread_create(&thread, NULL, write_when_told, NULL) != 0) return 1;
    while (!is_there) sched_yield();
    asks_in_malloc = ask_once_more;
    is_first = 1;
    by_a_link();
    is_first = 0;
    return pthread_join(thread, NULL) == 0 && !asks_in_malloc && written == 1 && !written_meanwhile ? 0 : 2;
}

/* Who forks waits for the lock of all streams; who has that for one stream's, in fflush; and who has this one writes, or has the kernel write. */
static int told[2];
static pid_t flusher;
static _Atomic int is_opening; /* 1: the next page that is opened is so before the fork, and counts as closed in the child */
static void *flush_all(void *data)
{
    flusher = gettid();
    stage = 2;
    fflush(NULL);
    return data;
}
static void *write_to_stream(void *way)
{
    flockfile(stream);
    for (stage = 1; stage < 2;) sched_yield();
    while (!is_asleep(flusher)) sched_yield();
    for (stage = 3; !is_asleep(getpid());) sched_yield();
    if (way) write_there(0);
    if (!way) written += read(zeros, place(), 4) == 4;
    funlockfile(stream);
    return NULL;
}
static int forks_beside(void *(*writes)(void *), void *data, int (*child_does)(void))
{
    pthread_t writer, flushing;
    int status;
    stage = 0;
    if (!closes_page() || pthread_create(&writer, NULL, writes, data) != 0) return 5;
    while (stage < 1) sched_yield();
    if (pthread_create(&flushing, NULL, flush_all, NULL) != 0) return 6;
    while (stage < 3) sched_yield();
    pid_t child = fork();
    if (child == 0) _exit(child_does());
    if (pthread_join(writer, NULL) != 0 || pthread_join(flushing, NULL) != 0) return 7;
    return waitpid(child, &status, 0) == child && status == 0 && written == 1 ? 0 : 8;
}
static int nothing(void) { return 0; }
static int forks_beside_a_write(void)
{
    make_places();
    return forks_beside(write_to_stream, &stream, nothing);
}
static int forks_beside_a_read(void)
{
    make_places();
    return forks_beside(write_to_stream, NULL, nothing);
}

/* The same where the child begins while that page is open already, and counts as closed: what it writes there in its next cycle is told. */
static long call_kernel(long number, const void *at, size_t bytes, long third)
{
    __asm__ volatile("syscall" : "+a"(number) : "D"(at), "S"(bytes), "d"(third) : "rcx", "r11", "memory");
    return number;
}
int mprotect(void *at, size_t bytes, int access)
{
    char byte;
    long answer = call_kernel(SYS_mprotect, at, bytes, access);
    if (is_opening == 1 && (access & PROT_WRITE)) {
        is_opening = 2;
        while (call_kernel(SYS_poll, &(struct pollfd){ .fd = told[0], .events = POLLIN }, 1, -1) != 1) continue;
        (void)!read(told[0], &byte, 1);
    }
    return answer == 0 ? 0 : -1;
}
static void *write_slowly(void *data)
{
    for (is_there = 1; stage < 3 || !is_asleep(getpid());) sched_yield();
    is_opening = 1;
    write_there(0);
    return data;
}
static void *leave_stream(void *data)
{
    pthread_t writer;
    flockfile(stream);
    is_there = 0;
    if (pthread_create(&writer, NULL, write_slowly, NULL) != 0) return data;
    while (!is_there) sched_yield();
    for (stage = 1; stage < 2;) sched_yield();
    while (!is_asleep(flusher)) sched_yield();
    for (stage = 3; is_opening < 2;) sched_yield();
    funlockfile(stream);
    pthread_join(writer, NULL);
    return data;
}
static int goes_on(void)
{
    if (write(told[1], "x", 1) != 1) return 1;
    while (GC_collect_a_little()) continue;
    GC_start_incremental_collection();
    for (size_t k = 1; k < BYTES / 8; k++) ((void *volatile *)(void *)place())[k] = places[k];
    while (GC_collect_a_little()) continue;
    return 0;
}
static int child_has_an_open_page(void)
{
    make_places();
    return pipe(told) != 0 ? 9 : forks_beside(leave_stream, NULL, goes_on);
}

int main(void)
{
    pid_t watcher = watch(300);
    GC_INIT();
    GC_allow_register_threads();
    CHECK(ends_well(of_by_a_link, 20));
    CHECK(ends_well(of_by_many_links, 20));
    CHECK(ends_well(of_by_finalizers, 20));
    CHECK(ends_well(of_by_roots, 20));
    CHECK(ends_well(of_by_typed_objects, 20));
    CHECK(ends_well(of_by_a_thread, 20));
    CHECK(ends_well(asks_while_it_is_lent, 20));
    CHECK(ends_well(forks_beside_a_write, 20));
    CHECK(ends_well(forks_beside_a_read, 20));
    CHECK(ends_well(child_has_an_open_page, 20));
    kill(watcher, SIGKILL);
    return check_ends();
}
