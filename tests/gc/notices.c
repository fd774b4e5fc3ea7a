/* Functions of the program that threads of the C library's call (SIGEV_THREAD): they write to closed pages and make requests, in a program that
 * has told of no thread. */
#define _GNU_SOURCE
#include <aio.h>
#include <fcntl.h>
#include <mqueue.h>
#include <pthread.h>
#include <signal.h>
#include <stdint.h>
#include <time.h>
#include <unistd.h>
#include "check.h"
#include "cycle.h"
#include "watch.h"

enum { WRITTEN = 7, STACK = 1 << 20 };
static _Atomic uintptr_t seen;
static sigset_t blocked;

static void on_notice(union sigval value)
{
    int *word = value.sival_ptr;
    *word = WRITTEN;
    uintptr_t *object = GC_malloc(16);
    *object = (uintptr_t)word;
    pthread_sigmask(SIG_BLOCK, NULL, &blocked);
    seen = *object;
}

/* The page stays closed until then. */
static int is_told(const int *word)
{
    while (!seen) usleep(1000);
    GC_gcollect();
    return seen == (uintptr_t)word && *word == WRITTEN ? 0 : 9;
}

static struct sigevent notice_into(int *word)
{
    begin();
    return (struct sigevent){ .sigev_notify = SIGEV_THREAD, .sigev_notify_function = on_notice, .sigev_value.sival_ptr = word };
}

static int of_timer(pthread_attr_t *attributes)
{
    timer_t *timer = GC_malloc(sizeof *timer);
    int *word = GC_malloc(16);
    struct sigevent notice = notice_into(word);
    notice.sigev_notify_attributes = attributes;
    if (timer_create(CLOCK_MONOTONIC, &notice, timer) != 0) return 1;
    if (timer_settime(*timer, 0, &(struct itimerspec){ .it_value = { 0, 1000000 } }, NULL) != 0) return 2;
    int answer = is_told(word);
    seen = 0;
    if (timer_delete(*timer) != 0) return 3;
    return sigismember(&blocked, SIGUSR2) && !sigismember(&blocked, SIGSEGV) ? answer : 4;
}
static int of_a_timer(void)
{
    GC_INIT();
    GC_enable_incremental();
    return of_timer(NULL);
}

/* And many more, one after the other, and at once. */
static int of_many(void)
{
    enum { MANY = 3000, AT_ONCE = 20 };
    timer_t timers[AT_ONCE];
    pthread_attr_t attributes;
    GC_INIT();
    GC_enable_incremental();
    if (pthread_attr_init(&attributes) != 0 || pthread_attr_setstacksize(&attributes, STACK) != 0) return 5;
    struct sigevent notice = { .sigev_notify = SIGEV_THREAD, .sigev_notify_function = on_notice };
    for (int k = 0; k < MANY; k++) {
        if (k >= AT_ONCE && timer_delete(timers[k % AT_ONCE]) != 0) return 6;
        if (timer_create(CLOCK_MONOTONIC, &notice, &timers[k % AT_ONCE]) != 0) return 7;
    }
    for (int k = 0; k < 3; k++)
        if (of_timer(&attributes) != 0) return 8;
    return 0;
}

static int of_a_queue(void)
{
    GC_INIT();
    GC_enable_incremental();
    int *word = GC_malloc(16);
    struct sigevent notice = notice_into(word);
    mqd_t queue = mq_open("/mpgc_notices", O_RDWR | O_CREAT | O_NONBLOCK, 0600, &(struct mq_attr){ .mq_maxmsg = 4, .mq_msgsize = 64 });
    if (queue == (mqd_t)-1) return 0;
    mq_unlink("/mpgc_notices");
    if (mq_notify(queue, &notice) != 0) return 1;
    return mq_send(queue, "x", 1, 0) == 0 ? is_told(word) : 2;
}

static int of_reading(void)
{
    GC_INIT();
    GC_enable_incremental();
    int *word = GC_malloc(16), file = open("/proc/self/stat", O_RDONLY);
    struct aiocb *block = GC_malloc(sizeof *block);
    *block = (struct aiocb){ .aio_fildes = file, .aio_buf = GC_malloc(100), .aio_nbytes = 4, .aio_sigevent = notice_into(word) };
    return aio_read(block) == 0 && is_told(word) == 0 && aio_error(block) == 0 && aio_return(block) == 4 ? 0 : 1;
}

/* The handler of profil counts in an ordinary object, whose page is closed: where one would find so many counts this process was. */
static int of_counts(void)
{
    enum { BYTES = 2000, ALL = 65536 };
    unsigned long sum = 0;
    GC_INIT();
    GC_enable_incremental();
    begin();
    unsigned short *counts = (void *)ordinary[100], *volatile none = NULL;
    if (profil(counts, BYTES, (size_t)of_counts, ALL / 2) != 0) return 1;
    while (clock() < CLOCKS_PER_SEC / 2)
        for (volatile long k = 0; k < 1000000; k++) continue;
    if (profil(none, 0, 0, 0) != 0) return 2;
    for (int k = 0; k < BYTES / 2; k++) sum += counts[k];
    end();
    return sum == 0 ? 3 : 0;
}

/* Children of a fork beside a thread that looks for a timer again and again, among many. */
static _Atomic int is_over;
static timer_t no_timer = (timer_t)0x3fffffff;
static void *look_again(void *data)
{
    while (!is_over) timer_delete(no_timer);
    return data;
}
static int of_forks(void)
{
    enum { MANY = 500, FORKS = 60 };
    int status = 0;
    pthread_t thread;
    timer_t timer;
    struct sigevent notice = { .sigev_notify = SIGEV_THREAD, .sigev_notify_function = on_notice };
    GC_INIT();
    for (int k = 0; k < MANY; k++)
        if (timer_create(CLOCK_MONOTONIC, &notice, &timer) != 0) return 1;
    if (pthread_create(&thread, NULL, look_again, NULL) != 0) return 2;
    for (int k = 0; k < FORKS && status == 0; k++) {
        pid_t child = fork();
        if (child == 0) {
            alarm(60);
            _exit(timer_delete(no_timer) == 0);
        }
        waitpid(child, &status, 0);
    }
    is_over = 1;
    return pthread_join(thread, NULL) == 0 && status == 0 ? 0 : 3;
}

int main(void)
{
    CHECK(ends_well(of_a_timer, 60));
    CHECK(ends_well(of_many, 60));
    CHECK(ends_well(of_a_queue, 60));
    CHECK(ends_well(of_reading, 60));
    CHECK(ends_well(of_counts, 60));
    CHECK(ends_well(of_forks, 100));
    return check_ends();
}
