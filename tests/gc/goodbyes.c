/* Threads that have said that they go: requests by the last destructors of their keys, also of the process's first and last thread; what is
 * known of them goes too; and one that goes on for some time behind its goodbye. */
#define _GNU_SOURCE
#define GC_THREADS
#include <malloc.h>
#include <pthread.h>
#include <sched.h>
#include <semaphore.h>
#include <signal.h>
#include <stdint.h>
#include <sys/stat.h>
#include <sys/syscall.h>
#include "gc.h"
#include "beside.h"
#include "check.h"
#include "watch.h"

enum { THREADS = 300 };

/* Threads whose last destructors of keys make requests, when no destructor of the library's will come any more, beside collections. */
static pthread_key_t key;
static _Atomic int rounds; /* of the destructors of one thread */
static void come_again(void *data)
{
    GC_malloc(16);
    if (data == &rounds) rounds++;
    pthread_setspecific(key, data);
}
static void *set_key(void *data)
{
    pthread_setspecific(key, data ? data : &key);
    return data;
}
static void destroyed_late(void)
{
    pthread_t collector;
    int right = 0;
    is_over = 0;
    pthread_key_create(&key, come_again);
    pthread_create(&collector, NULL, collect, NULL);
    for (int k = 0; k < THREADS; k++) {
        pthread_t thread;
        right += pthread_create(&thread, NULL, set_key, NULL) == 0 && pthread_join(thread, NULL) == 0;
    }
    is_over = 1;
    pthread_join(collector, NULL);
    CHECK(right == THREADS);
}

/* A process's first thread, which stays for the kernel when it has ended: the others collect without it. */
static void *collect_behind(void *first)
{
    if (pthread_join(*(pthread_t *)first, NULL) != 0) exit(1);
    for (int k = 0; k < 3; k++) GC_gcollect();
    exit(0);
}
static int first_is_destroyed_late(void)
{
    static pthread_t first;
    pthread_t thread;
    first = pthread_self();
    if (pthread_create(&thread, NULL, collect_behind, &first) != 0 || pthread_setspecific(key, &key) != 0) return 1;
    pthread_exit(NULL);
}

/* And its last one: the process ends, though the library has threads of its own. */
static void *volatile room_for_markers;
static void collect_again(void *data)
{
    pthread_setspecific(key, data);
    for (int k = 0; k < 100; k++) room_for_markers = GC_malloc((size_t)1 << 18);
    GC_gcollect();
}
static int last_is_destroyed_late(void)
{
    room_for_markers = GC_malloc((size_t)4 << 20);
    if (pthread_key_create(&key, collect_again) != 0 || pthread_setspecific(key, &key) != 0) return 1;
    GC_gcollect();
    pthread_exit(NULL);
}
static int last_is_destroyed_late_beside_the_collector(void)
{
    GC_enable_collector_thread();
    room_for_markers = GC_malloc(16);
    return last_is_destroyed_late();
}

/* The library's threads block signals: so no alarm ends such a process. */
static int ends_in_time(int (*body)(void))
{
    int status = -1;
    pid_t child = fork();
    if (child == 0) _exit(body());
    for (int k = 0; k < 600; k++) {
        if (waitpid(child, &status, WNOHANG) == child) return WIFEXITED(status) && WEXITSTATUS(status) == 0;
        rest(0.1);
    }
    kill(child, SIGKILL);
    waitpid(child, &status, 0);
    return 0;
}

/* What is known of a thread goes when it has ended, though it asked once more behind its last goodbye: also if it is joined only then. */
static long resident(void)
{
    long all, here = 0;
    FILE *file = fopen("/proc/self/statm", "r");
    if (file && fscanf(file, "%ld %ld", &all, &here) != 2) here = 0;
    if (file) fclose(file);
    return here;
}
static int threads_here(void)
{
    struct stat all;
    return stat("/proc/self/task", &all) == 0 ? (int)all.st_nlink - 2 : 0;
}
static void *set_key_alone(void *data)
{
    pthread_detach(pthread_self());
    return set_key(data);
}
static int is_joined_late(void)
{
    enum { ROUNDS = 4 }; /* PTHREAD_DESTRUCTOR_ITERATIONS */
    pthread_t thread;
    rounds = 0;
    if (pthread_create(&thread, NULL, set_key, &rounds) != 0) return 0;
    while (rounds < ROUNDS) sched_yield();
    return pthread_join(thread, NULL) == 0;
}
static int leaves_nothing_behind(void)
{
    enum { MANY = 3000, AT_ONCE = 20, MOST = 2500 }; /* threads, and pages: of each it was 3 and more */
    long before = 0;
    for (int k = 0; k < MANY; k++) {
        pthread_t thread;
        if (k == 100) before = resident();
        if (k % 2 ? !is_joined_late() : pthread_create(&thread, NULL, set_key_alone, NULL) != 0) return 1;
        if (k % 16 == 0) GC_gcollect();
        while (threads_here() > AT_ONCE) rest(0.0001);
    }
    return resident() - before > MOST ? 2 : 0;
}

/* Nor does a key that is set to an object as the last that a thread does, in the fourth round of destructors, behind the library's own. */
static pthread_key_t last_key;
static void *object_of_keys;
static void set_last_key(void *data) { pthread_setspecific(last_key, data); }
static void *set_last(void *data)
{
    set_last_key(object_of_keys);
    return data;
}
static int leave_nothing_behind(void *(*set)(void *))
{
    enum { MANY = 3000, MOST = 1000 }; /* of each it was a page */
    long before = 0;
    object_of_keys = GC_malloc(16);
    for (int k = 0; k < MANY; k++) {
        pthread_t thread;
        if (k == 100) before = resident();
        if (pthread_create(&thread, NULL, set, NULL) != 0 || pthread_join(thread, NULL) != 0) return 1;
        if (k % 16 == 0) GC_gcollect();
    }
    return resident() - before > MOST ? 2 : 0;
}
static int keys_leave_nothing_behind(void)
{
    return pthread_key_create(&last_key, set_last_key) != 0 ? 1 : leave_nothing_behind(set_last);
}

/* Nor one that was set by a thread that tells then itself that it goes. */
static void *set_and_tell(void *data)
{
    pthread_setspecific(last_key, object_of_keys);
    GC_unregister_my_thread();
    return data;
}
static int told_ones_leave_nothing_behind(void)
{
    return pthread_key_create(&last_key, NULL) != 0 ? 1 : leave_nothing_behind(set_and_tell);
}

/* Nor what a thread had by keys that it deletes. */
static int deleted_keys_keep_nothing(void)
{
    enum { MANY = 100, FEW = 10 }; /* some word may still name one */
    static GC_word hidden[MANY];
    pthread_key_t keys[MANY];
    int left = 0;
    for (int k = 0; k < MANY; k++) {
        void *object = GC_malloc(16);
        hidden[k] = GC_HIDE_POINTER(object);
        GC_general_register_disappearing_link((void **)&hidden[k], object);
        if (pthread_key_create(&keys[k], NULL) != 0 || pthread_setspecific(keys[k], object) != 0) return 1;
    }
    GC_gcollect();
    for (int k = 0; k < MANY; k++)
        if (!hidden[k] || pthread_getspecific(keys[k]) != GC_REVEAL_POINTER(hidden[k])) return 2;
    for (int k = 0; k < MANY; k++)
        if (pthread_key_delete(keys[k]) != 0) return 3;
    GC_gcollect();
    for (int k = 0; k < MANY; k++) left += hidden[k] != 0;
    return left > FEW ? 4 : 0;
}

/* A thread that is known from the beginning says that it goes, and goes on for some time: its record is written no more, where nobody will ask
 * what it answers. */
static _Atomic int stage;
static void *says_that_it_goes(void *data)
{
    GC_malloc(16);
    pthread_detach(pthread_self());
    GC_unregister_my_thread();
    stage = 1;
    while (stage == 1) sched_yield();
    return data;
}
static void unregistered(size_t bytes) /* of the blocks that come in the record's place, of which two sizes have their own words elsewhere */
{
    enum { BLOCKS = 300 };
    unsigned char *blocks[BLOCKS];
    int others = 0, before = threads_here();
    pthread_t thread;
    pthread_create(&thread, NULL, says_that_it_goes, &stage);
    while (stage == 0) sched_yield();
    for (int k = 0; k < BLOCKS; k++) {
        blocks[k] = malloc(bytes);
        memset(blocks[k], 0, malloc_usable_size(blocks[k]));
    }
    stage = 2;
    while (threads_here() > before) sched_yield();
    for (int k = 0; k < BLOCKS; k++)
        for (size_t i = 0; i < malloc_usable_size(blocks[k]); i++) others += blocks[k][i] != 0;
    stage = 0;
    CHECK(others == 0);
}

/* A detached thread that asked behind its last goodbye waits in its very end, with all signals blocked, in `free`: of what the C library has of a
 * stack that it keeps no longer. There a stopped thread might be: so no stop waits for it. Where it comes there otherwise, nothing is tried. */
extern void __libc_free(void *at);
static sem_t is_at_its_end, may_end;
static _Thread_local int rounds_here, has_asked_last;
void free(void *at)
{
    uint64_t blocked = 0;
    if (has_asked_last && syscall(SYS_rt_sigprocmask, SIG_BLOCK, NULL, &blocked, sizeof blocked) == 0 && blocked >> (SIGPWR - 1) & 1) {
        has_asked_last = 0;
        sem_post(&is_at_its_end);
        sem_wait(&may_end);
    }
    __libc_free(at);
}
static pthread_key_t late_key;
static void ask_late(void *data)
{
    enum { ROUNDS = 4 };
    GC_malloc(16);
    if (++rounds_here < ROUNDS)
        pthread_setspecific(late_key, data);
    else
        has_asked_last = 1;
}
static void *set_late(void *data)
{
    if (data) pthread_setspecific(late_key, data);
    return NULL;
}
static int run_with_stack(size_t megabytes, void *data)
{
    pthread_t thread;
    pthread_attr_t large;
    pthread_attr_init(&large);
    pthread_attr_setstacksize(&large, megabytes << 20);
    pthread_attr_setdetachstate(&large, PTHREAD_CREATE_DETACHED);
    return pthread_create(&thread, &large, set_late, data);
}
static int is_left_at_its_end(void)
{
    int before = threads_here();
    sem_init(&is_at_its_end, 0, 0);
    sem_init(&may_end, 0, 0);
    if (pthread_key_create(&late_key, ask_late) != 0 || run_with_stack(64, NULL) != 0) return 1;
    while (threads_here() > before) sched_yield();
    if (run_with_stack(128, &late_key) != 0) return 2;
    while (sem_trywait(&is_at_its_end) != 0) {
        if (threads_here() <= before) return 0;
        sched_yield();
    }
    GC_gcollect();
    sem_post(&may_end);
    while (threads_here() > before) sched_yield();
    GC_gcollect();
    return 0;
}

int main(void)
{
    pid_t watcher = watch(300);
    GC_INIT();
    GC_allow_register_threads();
    unregistered(256);
    unregistered(200);
    destroyed_late();
    CHECK(ends_well(first_is_destroyed_late, 60));
    CHECK(ends_well(is_left_at_its_end, 100));
    CHECK(status_of(leaves_nothing_behind) == 0);
    CHECK(status_of(keys_leave_nothing_behind) == 0);
    CHECK(status_of(told_ones_leave_nothing_behind) == 0);
    CHECK(status_of(deleted_keys_keep_nothing) == 0);
    CHECK(ends_in_time(last_is_destroyed_late));
    CHECK(ends_in_time(last_is_destroyed_late_beside_the_collector));
    kill(watcher, SIGKILL);
    return check_ends();
}
