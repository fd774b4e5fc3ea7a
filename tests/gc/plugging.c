/* A program that isn't linked with the collector loads a part that is (plugged.c), by which the collector comes, and takes it away again: threads
 * that end then, faults of the program's own and a second loading are as ever. */
#define _GNU_SOURCE
#include <dlfcn.h>
#include <pthread.h>
#include <setjmp.h>
#include <signal.h>
#include <string.h>
#include <sys/mman.h>
#include "check.h"
#include "watch.h"

static const char *part;
static int call_part(int incremental)
{
    int (*use)(int) = NULL, count = -1;
    void *loaded = dlopen(part, RTLD_NOW | RTLD_LOCAL), *found = loaded ? dlsym(loaded, "use") : NULL;
    memcpy(&use, &found, sizeof use);
    if (use) count = use(incremental);
    return loaded && dlclose(loaded) == 0 ? count : -1;
}

static pthread_barrier_t here;
static void *stand_by(void *data)
{
    pthread_barrier_wait(&here);
    pthread_barrier_wait(&here);
    return data;
}

static sigjmp_buf back;
static void on_fault(int number) { siglongjmp(back, number); }

static int used_and_gone(int incremental)
{
    pthread_t before, behind;
    char *closed = mmap(NULL, 4096, PROT_READ, MAP_PRIVATE | MAP_ANONYMOUS, -1, 0);
    pthread_barrier_init(&here, NULL, 2);
    if (pthread_create(&before, NULL, stand_by, &here) != 0) return 1;
    pthread_barrier_wait(&here);
    for (int k = 0; k < 3; k++)
        if (call_part(incremental) != 1000) return 2;
    pthread_barrier_wait(&here);
    if (pthread_join(before, NULL) != 0) return 3;
    if (pthread_create(&behind, NULL, stand_by, &here) != 0) return 4;
    pthread_barrier_wait(&here);
    pthread_barrier_wait(&here);
    if (pthread_join(behind, NULL) != 0) return 5;
    signal(SIGSEGV, on_fault);
    if (sigsetjmp(back, 1) == 0) {
        *(volatile char *)closed = 1;
        return 6;
    }
    return 0;
}
static int in_full(void) { return used_and_gone(0); }
static int in_small_steps(void) { return used_and_gone(1); }
static void *use_here(void *data) { return call_part(0) == 1000 ? data : NULL; }

/* It comes with a thread that ends before it has gone, but for what stays of it. */
static int by_a_thread(void)
{
    pthread_t thread;
    void *answer = NULL;
    if (pthread_create(&thread, NULL, use_here, &answer) != 0) return 1;
    return pthread_join(thread, &answer) == 0 && answer == &answer ? 0 : 2;
}

int main(int count, char **words)
{
    pid_t watcher = watch(300);
    part = count == 2 ? words[1] : "";
    CHECK(status_of(in_full) == 0);
    CHECK(status_of(in_small_steps) == 0);
    CHECK(status_of(by_a_thread) == 0);
    kill(watcher, SIGKILL);
    return check_ends();
}
