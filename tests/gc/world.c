/* What a program of several threads may do while collections stop it: fork, handle and block signals, end threads in every way, load
 * objects, wait in the kernel, which writes into its objects. */
#define _GNU_SOURCE
#define GC_THREADS
#include <dlfcn.h>
#include <errno.h>
#include <link.h>
#include <pthread.h>
#include <signal.h>
#include <stdint.h>
#include <sys/socket.h>
#include <sys/time.h>
#include <time.h>
#include "gc.h"
#include "check.h"
#include "watch.h"

enum { THREADS = 4 };
struct node { struct node *next; uint64_t value; };

static volatile int is_over;
static _Atomic int bad, rounds;
static int is_incremental;

static struct node *list_of(uint64_t seed, int length)
{
    struct node *head = NULL;
    for (int k = 0; k < length; k++) {
        struct node *node = GC_malloc(sizeof *node);
        node->value = seed + (uint64_t)k;
        node->next = head;
        head = node;
    }
    return head;
}

static int is_list(const struct node *node, uint64_t seed, int length)
{
    for (; node; node = node->next)
        if (node->value != seed + (uint64_t)--length) return 0;
    return length == 0;
}

static void *churn(void *seed)
{
    while (!is_over) {
        struct node *list = list_of((uintptr_t)seed, 500);
        bad += !is_list(list, (uintptr_t)seed, 500);
        rounds++;
    }
    return seed;
}

static pthread_t all[THREADS];
static void start(void *(*body)(void *))
{
    is_over = 0;
    bad = rounds = 0;
    for (uintptr_t k = 0; k < THREADS; k++) pthread_create(&all[k], NULL, body, (void *)(k * 10000));
}
static int stop(void)
{
    int is_right = 1;
    is_over = 1;
    for (uintptr_t k = 0; k < THREADS; k++) {
        void *answer;
        pthread_join(all[k], &answer);
        is_right &= answer == (void *)(k * 10000);
    }
    return is_right && bad == 0;
}

static int in_child(void)
{
    struct node *list = list_of(7, 2000);
    for (int k = 0; k < 3; k++) GC_gcollect();
    for (int k = 0; k < 50; k++)
        if (!is_list(list_of(9, 1000), 9, 1000)) return 1;
    start(churn);
    while (rounds < 50) sched_yield();
    return stop() && is_list(list, 7, 2000) ? 0 : 2;
}
static void forks(void)
{
    int status = 0;
    struct node *list = list_of(5, 1000);
    start(churn);
    for (int k = 0; k < 20; k++) status |= status_of(in_child);
    CHECK(status == 0);
    CHECK(stop());
    CHECK(is_list(list, 5, 1000));
}

/* A handler on its own stack and one on the thread's, which write into the heap; SIGALRM comes to whoever. */
static struct node *volatile written[2];
static _Atomic int handled;
static void on_alarm(int number)
{
    struct node *node = written[number == SIGALRM];
    if (node) node->value = (uint64_t)++handled;
}
static void *churn_on_alt(void *seed)
{
    stack_t alt = { .ss_sp = malloc(65536), .ss_size = 65536 };
    sigaltstack(&alt, NULL);
    while (!is_over) {
        struct node *list = list_of((uintptr_t)seed, 200);
        pthread_kill(pthread_self(), SIGUSR1);
        bad += !is_list(list, (uintptr_t)seed, 200);
        rounds++;
    }
    return seed;
}
static void signals(void)
{
    struct sigaction on_alt = { .sa_handler = on_alarm, .sa_flags = SA_ONSTACK | SA_RESTART }, plain = { .sa_handler = on_alarm, .sa_flags = SA_RESTART };
    struct itimerval often = { { 0, 700 }, { 0, 700 } }, never = { { 0, 0 }, { 0, 0 } };
    written[0] = list_of(1, 1);
    written[1] = list_of(1, 1);
    sigaction(SIGUSR1, &on_alt, NULL);
    sigaction(SIGALRM, &plain, NULL);
    setitimer(ITIMER_REAL, &often, NULL);
    start(churn_on_alt);
    for (int k = 0; k < 150; k++) {
        struct timespec some = { 0, 5000000 };
        nanosleep(&some, NULL);
        if (k % 10 == 0) GC_gcollect();
    }
    CHECK(stop());
    setitimer(ITIMER_REAL, &never, NULL);
    CHECK(handled > 10);
}

/* Threads that block every signal, by the C library's calls. */
static void *churn_blocked(void *seed)
{
    sigset_t set;
    sigfillset(&set);
    pthread_sigmask(SIG_SETMASK, &set, NULL);
    return churn(seed);
}
static void blocked(void)
{
    sigset_t set, old;
    sigfillset(&set);
    pthread_sigmask(SIG_BLOCK, &set, &old);
    start(churn_blocked);
    while (rounds < 300) sched_yield();
    for (int k = 0; k < 5; k++) GC_gcollect();
    CHECK(stop());
    pthread_sigmask(SIG_SETMASK, &old, NULL);
}

/* Threads that end in every way. */
static void *leave(void *how)
{
    struct node *list = list_of(3, 100);
    if (how == (void *)1) pthread_exit(list);
    if (how == (void *)2) pthread_cancel(pthread_self());
    if (how == (void *)2) pthread_testcancel();
    return list;
}
static void endings(void)
{
    int is_right = 1;
    struct node *answers[40];
    start(churn);
    for (int k = 0; k < 600; k++) {
        pthread_t thread;
        pthread_attr_t attributes;
        void *answer;
        pthread_attr_init(&attributes);
        pthread_attr_setdetachstate(&attributes, k % 5 == 0 ? PTHREAD_CREATE_DETACHED : PTHREAD_CREATE_JOINABLE);
        if (pthread_create(&thread, &attributes, leave, (void *)(uintptr_t)(k % 3)) != 0) continue;
        pthread_attr_destroy(&attributes);
        if (k % 5 == 0) continue;
        if (k % 5 == 1) {
            pthread_detach(thread);
            continue;
        }
        if (k % 20 == 2) {  // it has ended long before it is joined
            struct timespec some = { 0, 20000000 };
            nanosleep(&some, NULL);
            GC_gcollect();
        }
        pthread_join(thread, &answer);
        if (k % 3 == 2)
            is_right &= answer == PTHREAD_CANCELED;
        else
            is_right &= is_list(answer, 3, 100);
        answers[k % 40] = answer;
    }
    (void)answers;
    CHECK(is_right);
    CHECK(stop());
}

/* The kernel writes into an object while other threads collect, and while a handler of the same thread makes calls of its own: of every other
 * thread on a stack for signals. */
static int ends[2];
static _Atomic int faulted;
static char (*stacks_of_signals)[65536];
static void ask_the_time(int number)
{
    struct timespec time;
    (void)number;
    clock_gettime(CLOCK_REALTIME, &time);
}
/* By calls of seven arguments, so that words lie on the stack behind them; and then further down. */
ssize_t __recvfrom_chk(int file, void *into, size_t bytes, size_t room, int flags, struct sockaddr *from, socklen_t *length);
static __attribute__((noinline)) ssize_t read_further_down(unsigned char *into, volatile char *room)
{
    volatile char below[512];
    below[0] = *room;
    return read(ends[0], into, 1000) + 0 * below[0];
}
static ssize_t read_behind_others(unsigned char *into)
{
    volatile char room = 0;
    for (int k = 0; k < 12; k++) (void)!__recvfrom_chk(ends[0], into, 1000, 2000, MSG_DONTWAIT, NULL, NULL);
    return read_further_down(into, &room);
}
static void *read_slowly(void *seed)
{
    uintptr_t number = (uintptr_t)seed / 10000;
    stack_t alt = { .ss_sp = stacks_of_signals[number], .ss_size = sizeof *stacks_of_signals };
    if (number % 2) sigaltstack(&alt, NULL);
    while (!is_over) {
        unsigned char *into = GC_malloc(2000);
        ssize_t got = read_behind_others(into);
        if (got < 0 && errno == EFAULT) faulted++;
        for (ssize_t k = 0; k < got; k++) bad += into[k] != 'x';
        rounds++;
    }
    return seed;
}
static void write_for_readers(void)
{
    char text[500];
    memset(text, 'x', sizeof text);
    for (int k = 0; k < 400; k++) {
        struct timespec some = { 0, 500000 };
        for (int j = 0; j < THREADS; j++) pthread_kill(all[j], SIGUSR2);
        for (int j = 0; j < 40; j++) list_of(1, 100);
        if (k % 3 == 0) nanosleep(&some, NULL);
        (void)!write(ends[1], text, sizeof text);
    }
    is_over = 1;
    for (int k = 0; k < THREADS; k++) (void)!write(ends[1], text, sizeof text);
}
static void reading(void)
{
    struct sigaction asks = { .sa_handler = ask_the_time, .sa_flags = SA_ONSTACK | SA_RESTART };
    faulted = 0;
    stacks_of_signals = malloc(THREADS * sizeof *stacks_of_signals);
    if (pipe(ends) != 0 || !stacks_of_signals || sigaction(SIGUSR2, &asks, NULL) != 0) abort();
    start(read_slowly);
    write_for_readers();
    close(ends[1]);
    CHECK(stop());
    CHECK(rounds > 0 && faulted == 0);
    if (faulted) printf("  EFAULT %d times\n", faulted);
    close(ends[0]);
    free(stacks_of_signals);
}

/* Objects that are loaded and taken away, whose data and thread-local data name objects. */
static const char *path, *larger;
static int both;
static void *load(void *seed)
{
    while (!is_over) {
        void *object = dlopen(both && (uintptr_t)seed % 20000 ? larger : path, RTLD_NOW);
        void **(*place)(void);
        void *found = object ? dlsym(object, "thread_place") : NULL;
        if (!found) {
            bad++;
            return seed;
        }
        memcpy(&place, &found, sizeof place);
        *place() = list_of((uintptr_t)seed, 300);
        for (int k = 0; k < 3; k++) list_of(1, 300);
        bad += !is_list(*place(), (uintptr_t)seed, 300);
        dlclose(object);
        for (int k = 0; both && k < 3; k++) GC_gcollect(); /* while others load theirs in its place */
        rounds++;
    }
    return seed;
}
static void loading(void)
{
    both = 0;
    start(load);
    while (rounds < 300 && bad == 0) GC_gcollect();
    CHECK(stop());
}

/* The same of two objects, which come in each other's place: one has more thread-local data. */
static void loading_both(void)
{
    both = 1;
    start(load);
    while (rounds < 400 && bad == 0) sched_yield();
    CHECK(stop());
}

/* An object with more thread-local data comes in the place of one whose data a thread has still. */
static void **(*place)(void);
static _Atomic int has_looked;
static void *look_once(void *seed)
{
    place();
    has_looked = 1;
    while (!is_over) sched_yield();
    return seed;
}
static void *load_place(const char *from)
{
    void *object = dlopen(from, RTLD_NOW), *found = object ? dlsym(object, "thread_place") : NULL;
    if (!found) abort();
    memcpy(&place, &found, sizeof found);
    return object;
}
static void replaced(void)
{
    pthread_t thread;
    is_over = has_looked = 0;
    void *first = load_place(path);
    pthread_create(&thread, NULL, look_once, NULL);
    while (!has_looked) sched_yield();
    dlclose(first);
    void *second = load_place(larger);
    for (int k = 0; k < 3; k++) GC_gcollect();
    is_over = 1;
    CHECK(pthread_join(thread, NULL) == 0);
    dlclose(second);
}

/* An object that is loaded has its thread-local data in the room that each thread has for it from its start. */
static const char *initial;
static __attribute__((noinline)) void put_list(uint64_t seed) { *place() = list_of(seed, 300); }
static void in_the_room(void)
{
    void *object = load_place(initial);
    put_list(5);
    for (int k = 0; k < 3; k++) {
        list_of(1, 300);
        GC_gcollect();
    }
    CHECK(is_list(*place(), 5, 300));
    *place() = NULL;
    dlclose(object);
}

/* Threads that go through the loaded objects, slowly, while others collect. */
static int look_slowly(struct dl_phdr_info *object, size_t size, void *data)
{
    (void)object;
    (void)size;
    (void)data;
    for (volatile int k = 0; k < 3000; k++) continue;
    return 0;
}
static void *look(void *seed)
{
    while (!is_over) {
        for (int k = 0; k < 20; k++) dl_iterate_phdr(look_slowly, NULL);
        bad += !is_list(list_of((uintptr_t)seed, 100), (uintptr_t)seed, 100);
        rounds++;
    }
    return seed;
}
static void looking(void)
{
    start(look);
    for (int k = 0; k < 200 || rounds < 100; k++) GC_gcollect();
    CHECK(stop());
}

static void within_time(void (*part)(void))
{
    pid_t watcher = watch(150);
    part();
    kill(watcher, SIGKILL);
    waitpid(watcher, NULL, 0);
}

int main(int count, char **words)
{
    struct node *mine;
    path = count > 1 ? words[1] : NULL;
    larger = count > 2 ? words[2] : NULL;
    initial = count > 3 ? words[3] : NULL;
    GC_INIT();
    is_incremental = getenv("INCREMENTAL") != NULL;
    if (is_incremental) GC_enable_incremental();
    mine = list_of(11, 1000);
    within_time(forks);
    within_time(signals);
    within_time(blocked);
    within_time(endings);
    if (path) within_time(loading);
    if (larger) within_time(loading_both);
    if (larger) within_time(replaced);
    if (initial) within_time(in_the_room);
    within_time(looking);
    within_time(reading);
    CHECK(is_list(mine, 11, 1000));
    return check_ends();
}
