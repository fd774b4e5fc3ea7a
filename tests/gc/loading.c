/* What the layer does for the first time while another thread loads an object whose constructor waits for the layer's lock, or for what the
 * program does by a call that the layer takes: nothing of it may wait for the loader's. Each in a child of its own, which is ended if it hangs. The word is the file of loaded_calling.c, built as a shared
 * object. */
#define _GNU_SOURCE
#define GC_THREADS
#include <dlfcn.h>
#include <pthread.h>
#include <sched.h>
#include <poll.h>
#include <stdint.h>
#include <sys/random.h>
#include <time.h>
#include "gc.h"
#include "check.h"
#include "watch.h"

static const char *file;
static _Atomic int stage;  /* 1 while the constructor runs, 2 once the main thread has done what it does then */

static void ask_while_loading(void)
{
    stage = 1;
    while (stage == 1) {
        GC_malloc(100000);
        sched_yield();
    }
}
static void *load(void *data) { return dlopen(file, RTLD_NOW) ? data : NULL; }

/* Whether the thread that loads ends once this one has made its first collection, which has enough to mark for several threads. */
static int beside_loading(void (*collect)(void))
{
    enum { OBJECTS = 40000 };
    static void **kept;
    char address[20];
    pthread_t thread;
    void *answer = NULL;
    snprintf(address, sizeof address, "%llx", (unsigned long long)(uintptr_t)ask_while_loading);
    setenv("CALLED_WHILE_LOADING", address, 1);
    GC_disable();
    for (int k = 0; k < OBJECTS; k++) {
        void **next = GC_malloc(64);
        *next = kept;
        kept = next;
    }
    if (pthread_create(&thread, NULL, load, &stage) != 0) return 2;
    while (stage != 1) sched_yield();
    if (GC_get_gc_no() != 0) return 3;
    GC_enable();
    collect();
    stage = 2;
    return pthread_join(thread, &answer) != 0 || answer != &stage;
}

static void ask_until_collected(void)
{
    while (GC_get_gc_no() == 0) GC_malloc(64);
}

static int collects(void) { return beside_loading(GC_gcollect); }
static int asks(void) { return beside_loading(ask_until_collected); }
static int makes_steps(void)
{
    GC_enable_incremental();
    return beside_loading(ask_until_collected);
}

static void call_the_kernel(void)
{
    char bytes[8];
    nanosleep(&(struct timespec){ 0, 1000 }, NULL);
    poll(NULL, 0, 0);
    if (getrandom(bytes, sizeof bytes, 0) == sizeof bytes) GC_gcollect();
}
static int calls(void) { return beside_loading(call_the_kernel); }

int main(int count, char **words)
{
    file = count > 1 ? words[1] : "";
    CHECK(ends_well(collects, 60));
    CHECK(ends_well(asks, 60));
    CHECK(ends_well(makes_steps, 60));
    CHECK(ends_well(calls, 60));
    return check_ends();
}
