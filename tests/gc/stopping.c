/* What makes it hard to stop threads: that they are cancelled in a call of the system, handle signals while they begin and end, wait where the kernel
 * holds their signals back, or block them; and that the whole process is stopped meanwhile. */
#define _GNU_SOURCE
#define GC_THREADS
#include <pthread.h>
#include <signal.h>
#include <dirent.h>
#include <spawn.h>
#include <stdint.h>
#include <sys/stat.h>
#include <sys/syscall.h>
#include <time.h>
#include "gc.h"
#include "beside.h"
#include "check.h"
#include "states.h"
#include "watch.h"

static _Atomic int stage;

/* Threads that wait in a call of the system are cancelled, beside collections. */
enum { TOGETHER = 8, CANCELLERS = 3, ROUNDS = 60 };
static int ends[2];
static void *read_for_ever(void *data)
{
    char byte;
    GC_malloc(16);
    while (read(ends[0], &byte, 1) < 0) continue;
    return data;
}
static void *cancel_many(void *data)
{
    uintptr_t right = 0;
    for (int round = 0; round < ROUNDS; round++) {
        pthread_t all[TOGETHER];
        for (int k = 0; k < TOGETHER; k++) pthread_create(&all[k], NULL, read_for_ever, data);
        rest(0.0003);
        for (int k = 0; k < TOGETHER; k++) pthread_cancel(all[k]);
        for (int k = 0; k < TOGETHER; k++) {
            void *answer;
            right += pthread_join(all[k], &answer) == 0 && answer == PTHREAD_CANCELED;
        }
    }
    return (void *)right;
}
static void cancelled(void)
{
    pthread_t all[CANCELLERS], collector;
    if (pipe(ends) != 0) return;
    pthread_create(&collector, NULL, collect, NULL);
    for (int k = 0; k < CANCELLERS; k++) pthread_create(&all[k], NULL, cancel_many, NULL);
    for (int k = 0; k < CANCELLERS; k++) {
        void *right = NULL;
        pthread_join(all[k], &right);
        CHECK((uintptr_t)right == TOGETHER * ROUNDS);
    }
    is_over = 1;
    pthread_join(collector, NULL);
}

/* A handler writes into the heap, on whichever thread, also one that begins or ends; but not while the world is stopped, which the core sees
 * that checks what is owed. */
enum { WRITTEN = 1000 };
static uint64_t *volatile written[WRITTEN];
static void write_some(int number)
{
    static volatile unsigned at;
    for (int k = 0; k < 20; k++, at++) written[at % WRITTEN][1] = (uint64_t)number + at;
}
static void *begin_and_end(void *data)
{
    while (!is_over) {
        pthread_t all[TOGETHER];
        for (int k = 0; k < TOGETHER; k++) pthread_create(&all[k], NULL, ask_once, data);
        for (int k = 0; k < TOGETHER; k++) pthread_join(all[k], NULL);
    }
    return data;
}
/* With rests: without them a thread can find the next one whenever it has handled one, and do nothing else. */
static void *signal_often(void *data)
{
    sigset_t every;
    sigfillset(&every);
    pthread_sigmask(SIG_SETMASK, &every, NULL);
    for (; !is_over; rest(0.00001)) kill(getpid(), SIGUSR1);
    return data;
}
static int handles_signals(void)
{
    pthread_t makers[2], sender;
    time_t end = time(NULL) + 4;
    for (int k = 0; k < WRITTEN; k++) written[k] = GC_malloc(64);
    sigaction(SIGUSR1, &(struct sigaction){ .sa_handler = write_some, .sa_flags = SA_RESTART }, NULL);
    is_over = 0;
    for (int k = 0; k < 2; k++) pthread_create(&makers[k], NULL, begin_and_end, NULL);
    pthread_create(&sender, NULL, signal_often, NULL);
    while (time(NULL) < end) GC_gcollect();
    is_over = 1;
    for (int k = 0; k < 2; k++) pthread_join(makers[k], NULL);
    return pthread_join(sender, NULL);
}

/* A thread that begins in a stop has a signal that it doesn't block: its handler comes when the world has gone on, and not before. */
static _Atomic int handled;
static void count_it(int number) { handled += number == SIGUSR1; }
static pid_t second_thread(void)
{
    pid_t found = 0;
    DIR *all = opendir("/proc/self/task");
    for (struct dirent *one; all && (one = readdir(all));)
        if (*one->d_name != '.' && atoi(one->d_name) != getpid()) found = atoi(one->d_name);
    if (all) closedir(all);
    return found;
}
static int begins_in_a_stop(void)
{
    pthread_t thread;
    sigaction(SIGUSR1, &(struct sigaction){ .sa_handler = count_it, .sa_flags = SA_RESTART }, NULL);
    GC_stop_world_external();
    if (pthread_create(&thread, NULL, ask_once, NULL) != 0) return 1;
    pid_t begun = second_thread();
    if (pthread_kill(thread, SIGUSR1) != 0) return 2;
    while (!handled && !(has_pending(begun, SIGUSR1) && is_asleep(begun))) rest(0.0001);
    int in_stop = handled;
    GC_start_world_external();
    if (pthread_join(thread, NULL) != 0) return 3;
    return in_stop == 0 && handled == 1 ? 0 : 4;
}

/* A thread waits for its child by vfork, where the kernel holds its signals back: for longer than one is waited for that is told and doesn't answer. */
static int seconds_to_start;
static void *start_slowly(void *data)
{
    GC_malloc(16);
    if (vfork() == 0) {
        rest(seconds_to_start);
        _exit(0);
    }
    return data;
}
static int collect_beside_a_start(int seconds)
{
    pthread_t thread;
    seconds_to_start = seconds;
    if (pthread_create(&thread, NULL, start_slowly, NULL) != 0) return 1;
    rest(0.5);
    GC_gcollect();
    return pthread_join(thread, NULL);
}
static int waits_for_a_slow_one(void) { return collect_beside_a_start(26); }

/* The same where another program is started by posix_spawn, which blocks every signal meanwhile: it waits for a file that somebody opens late. */
static char late_file[64];
static void *start_with_a_late_file(void *data)
{
    char *words[] = { "true", NULL };
    posix_spawn_file_actions_t actions;
    pid_t child;
    int status;
    GC_malloc(16);
    posix_spawn_file_actions_init(&actions);
    posix_spawn_file_actions_addopen(&actions, 0, late_file, O_RDONLY, 0);
    if (posix_spawnp(&child, words[0], &actions, NULL, words, environ) != 0) return data;
    return waitpid(child, &status, 0) == child && status == 0 ? NULL : data;
}
static int waits_for_a_slow_start(void)
{
    pthread_t thread;
    void *failed_there;
    snprintf(late_file, sizeof late_file, "/tmp/mpgc_stopping_%d", (int)getpid());
    if (mkfifo(late_file, 0600) != 0) return 1;
    if (fork() == 0) {
        rest(26);
        int file = open(late_file, O_RDWR);
        unlink(late_file);
        rest(1);
        _exit(file < 0);
    }
    if (pthread_create(&thread, NULL, start_with_a_late_file, &thread) != 0) return 2;
    rest(0.5);
    GC_gcollect();
    return pthread_join(thread, &failed_there) != 0 || failed_there ? 3 : 0;
}

/* The process is stopped for as long, in the middle of a stop of the world. */
static int is_stopped_itself(void)
{
    pid_t parent = getpid();
    if (fork() == 0) {
        rest(1.5);
        kill(parent, SIGSTOP);
        rest(21);
        kill(parent, SIGCONT);
        _exit(0);
    }
    return collect_beside_a_start(3);
}

/* One that blocks the signal by the kernel's own call is waited for no longer. */
static void *block_all(void *data)
{
    uint64_t every = UINT64_MAX;
    GC_malloc(16);
    syscall(SYS_rt_sigprocmask, SIG_SETMASK, &every, NULL, sizeof every);
    for (stage = 1;;) pause();
    return data;
}
static void beside_one_that_blocks(void)
{
    pthread_t thread;
    alarm(100);
    if (pthread_create(&thread, NULL, block_all, NULL) != 0) return;
    while (stage == 0) rest(0.01);
    GC_gcollect();
}
static int is_told_of_one_that_blocks(void) { return !stops_with(beside_one_that_blocks, "a thread didn't stop"); }

static pid_t begin_in_child(int (*body)(void))
{
    pid_t child = fork();
    if (child == 0) _exit(body());
    return child;
}

int main(void)
{
    pid_t watcher = watch(300);
    GC_INIT();
    GC_allow_register_threads();
    int (*const slow[])(void) = { is_stopped_itself, waits_for_a_slow_one, waits_for_a_slow_start, is_told_of_one_that_blocks };
    pid_t children[4];
    for (int k = 0; k < 4; k++) children[k] = begin_in_child(slow[k]);
    CHECK(ends_well(begins_in_a_stop, 60));
    CHECK(ends_well(handles_signals, 60));
    cancelled();
    for (int k = 0; k < 4; k++) {
        int status = -1;
        while (waitpid(children[k], &status, 0) < 0) continue;
        CHECK(WIFEXITED(status) && WEXITSTATUS(status) == 0);
    }
    kill(watcher, SIGKILL);
    return check_ends();
}
