/* The kernel's calls by `syscall`, into pages that are closed: what is told by them, and a lock of the program's own, by futexes that aren't
 * private, in an ordinary object, for which threads wait beside collections. */
#define _GNU_SOURCE
#define GC_THREADS
#include <errno.h>
#include <linux/futex.h>
#include <poll.h>
#include <pthread.h>
#include <stdatomic.h>
#include <sys/mman.h>
#include <sys/syscall.h>
#include <sys/utsname.h>
#include "gc.h"
#include "beside.h"
#include "check.h"
#include "cycle.h"
#include "watch.h"

static void of_what_is_told(void)
{
    static const char zeros[100];
    begin();
    struct utsname *names = (void *)ordinary[100];
    CHECK(syscall(SYS_uname, names) == 0 && strcmp(names->sysname, "Linux") == 0);
    CHECK(syscall(SYS_getcwd, ordinary[120], 1000) > 0 && ordinary[120][0] == '/');
    CHECK(syscall(SYS_getrandom, ordinary[140] + 1000, 900, 0) == 900 && memcmp(ordinary[140] + 1800, zeros, 100) != 0);
    CHECK(syscall(SYS_getrandom, NULL, 10, 0) == -1);
    CHECK(syscall(SYS_getppid) == getppid());
    end();
}

/* A long object, of which each page is written, from a file, where no stop cuts it short. */
static void of_many_pages(void)
{
    enum { LENGTH = 100000 };
    char *text = GC_malloc(LENGTH), *source = GC_malloc_atomic(LENGTH);
    int file = memfd_create("direct", 0);
    memset(source, 'x', LENGTH);
    CHECK(write(file, source, LENGTH) == LENGTH);
    begin();
    CHECK(syscall(SYS_pread64, file, text, LENGTH, 0L) == LENGTH && memcmp(text, source, LENGTH) == 0);
    end();
    close(file);
}

/* What is counted, and takes more bytes than pages that are opened together have: for poll the next word counts it, for move_pages an early one. */
static void of_what_is_counted(void)
{
    enum { FILES = 5000 };
    struct pollfd *files = GC_malloc(FILES * sizeof *files);
    int *nodes = GC_malloc(FILES * sizeof *nodes), ends[2];
    void **pages = malloc(FILES * sizeof *pages);
    if (pipe(ends) != 0) return;
    for (int k = 0; k < FILES; k++) {
        files[k] = (struct pollfd){ .fd = ends[1], .events = POLLOUT };
        pages[k] = &ends;
    }
    begin();
    CHECK(syscall(SYS_poll, files, (long)FILES, 0L) == FILES ? files[FILES - 1].revents == POLLOUT : errno == EINVAL);
    CHECK(syscall(SYS_move_pages, 0L, (long)FILES, pages, NULL, nodes, 0L) == 0 || errno == ENOSYS || errno == EPERM);
    end();
    free(pages);
    close(ends[0]);
    close(ends[1]);
}

/* 0 is free, 1 taken, 2 taken and waited for. */
enum { THREADS = 3, TURNS = 400 };
static struct lock { _Atomic int state; long count; char rest[2000]; } *lock;
static _Atomic int left, failures;

static void take(void)
{
    int seen = 0;
    if (atomic_compare_exchange_strong(&lock->state, &seen, 1)) return;
    while (atomic_exchange(&lock->state, 2) != 0)
        failures += syscall(SYS_futex, &lock->state, FUTEX_WAIT, 2, NULL, NULL, 0) != 0 && errno != EAGAIN && errno != EINTR;
}
static void give_back(void)
{
    if (atomic_exchange(&lock->state, 0) == 2) failures += syscall(SYS_futex, &lock->state, FUTEX_WAKE, 1, NULL, NULL, 0) < 0;
}

static void *take_turns(void *data)
{
    for (int k = 0; k < TURNS; k++) {
        take();
        long seen = lock->count;
        rest(0.0001);
        lock->count = seen + 1;
        give_back();
    }
    left--;
    return data;
}

static int in_turns(void)
{
    pthread_t threads[THREADS];
    GC_enable_incremental();
    lock = GC_malloc(sizeof *lock);
    left = THREADS;
    for (int k = 0; k < THREADS; k++) failures += pthread_create(&threads[k], NULL, take_turns, NULL) != 0;
    while (left > 0)
        for (int k = 0; k < 100; k++) GC_malloc(64);
    for (int k = 0; k < THREADS; k++) failures += pthread_join(threads[k], NULL) != 0;
    return failures != 0 || lock->count != THREADS * TURNS;
}

int main(void)
{
    GC_INIT();
    CHECK(ends_well(in_turns, 20));
    GC_enable_incremental();
    of_what_is_told();
    of_many_pages();
    of_what_is_counted();
    return check_ends();
}
