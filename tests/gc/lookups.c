/* Names that are looked up beside the program (`getaddrinfo_a`), by blocks in ordinary objects, whose pages are closed while threads of the C
 * library write there. A lookup waits where the list of other names (HOSTALIASES) is a pipe that nobody has opened. */
#define _GNU_SOURCE
#include <errno.h>
#include <fcntl.h>
#include <netdb.h>
#include <pthread.h>
#include <signal.h>
#include <stdint.h>
#include <sys/stat.h>
#include <time.h>
#include "check.h"
#include "cycle.h"
#include "states.h"
#include "watch.h"

static int at;
static void *place(void) { return ordinary[at = (at + 2) % COUNT]; }

/* The block, and what it points to, stand in objects. */
static struct gaicb *block_for(const char *name)
{
    struct gaicb *block = place();
    struct addrinfo *wanted = place();
    char *its = place();
    memset(block, 0, sizeof *block);
    *wanted = (struct addrinfo){ .ai_family = AF_INET, .ai_socktype = SOCK_STREAM };
    block->ar_name = strcpy(its, name);
    block->ar_request = wanted;
    return block;
}

/* Cycles come and go, and one marks. */
static void close_pages(void)
{
    for (int k = 0; k < 3; k++) {
        end();
        GC_gcollect();
        GC_start_incremental_collection();
    }
}

static int wait_for(struct gaicb *block)
{
    const struct gaicb *list[] = { block };
    int status;
    while ((status = gai_error(block)) == EAI_INPROGRESS) gai_suspend(list, 1, NULL);
    return status;
}

static int has_address(struct gaicb *block, const char *wanted)
{
    char text[100] = "";
    const struct addrinfo *came = block->ar_result;
    int is_it = came && getnameinfo(came->ai_addr, came->ai_addrlen, text, sizeof text, NULL, 0, NI_NUMERICHOST) == 0 && strcmp(text, wanted) == 0;
    if (came) freeaddrinfo(block->ar_result);
    return is_it;
}

/* Whether a lookup waits is the machine's: the list of names is opened where it asks name servers. */
static char path[] = "/tmp/mpgc.XXXXXX", pipe_path[sizeof path + 2];
static int let_on(void)
{
    int end = -1;
    for (int k = 0; k < 200 && (end = open(pipe_path, O_WRONLY | O_NONBLOCK)) < 0; k++) usleep(1000);
    if (end >= 0) close(end);
    return end >= 0;
}
static int makes_pipe(void)
{
    if (!mkdtemp(path)) return 0;
    snprintf(pipe_path, sizeof pipe_path, "%s/p", path);
    return mkfifo(pipe_path, 0600) == 0 && setenv("HOSTALIASES", pipe_path, 1) == 0 && setenv("RES_OPTIONS", "timeout:1 attempts:1", 1) == 0;
}

static int waits(void)
{
    struct gaicb *block = block_for("mpgc-of-no-machine"), **list = place();
    list[0] = block;
    if (getaddrinfo_a(GAI_NOWAIT, list, 1, NULL) != 0) return 1;
    close_pages();
    const struct gaicb *wanted[] = { NULL, block };
    gai_suspend(wanted, 2, &(struct timespec){ 0, 1000 });
    while (gai_error(block) == EAI_INPROGRESS) let_on();
    int status = gai_error(block);
    return status != 0 && wait_for(block) == status ? 0 : 3;
}

static int lists(void)
{
    struct gaicb **list = place(), outside = { .ar_name = "127.0.0.3" };
    list[0] = block_for("127.0.0.1");
    list[1] = NULL;
    list[2] = block_for("127.0.0.2");
    list[3] = &outside;
    list[4] = block_for("no machine's name");
    close_pages();
    if (getaddrinfo_a(GAI_WAIT, list, 5, NULL) != 0) return 1;
    if (list[0]->__return != 0 || gai_error(list[0]) != 0 || !has_address(list[0], "127.0.0.1")) return 2;
    if (gai_error(list[2]) != 0 || !has_address(list[2], "127.0.0.2")) return 3;
    if (gai_error(&outside) != 0 || !has_address(&outside, "127.0.0.3")) return 4;
    return gai_error(list[4]) != 0 && gai_error(list[4]) != EAI_INPROGRESS && !list[4]->ar_result ? 0 : 5;
}

/* Each block again and again, of which some are never asked for. */
static int many(void)
{
    enum { TURNS = 30, AT_ONCE = 20 };
    struct gaicb *blocks[AT_ONCE];
    for (int k = 0; k < AT_ONCE; k++) blocks[k] = block_for("127.0.0.1");
    for (int turn = 0; turn < TURNS; turn++) {
        if (getaddrinfo_a(turn % 3 == 0 ? GAI_WAIT : GAI_NOWAIT, blocks, AT_ONCE, NULL) != 0) return 1;
        if (turn % 4 == 0) close_pages();
        for (int k = 0; k < AT_ONCE; k++) {
            if (turn % 6 == 0 && k > 0) {
                freeaddrinfo(blocks[k]->ar_result);
                continue;
            }
            if (wait_for(blocks[k]) != 0 || !has_address(blocks[k], "127.0.0.1")) return 2;
        }
    }
    return 0;
}

static int cancels(void)
{
    struct gaicb *block = block_for("mpgc-of-no-machine");
    if (getaddrinfo_a(GAI_NOWAIT, &block, 1, NULL) != 0) return 1;
    int answer = gai_cancel(block);
    if (answer != EAI_CANCELED) {
        while (gai_error(block) == EAI_INPROGRESS) let_on();
        if (gai_cancel(block) != EAI_ALLDONE) return 2;
    }
    block->ar_name = strcpy(place(), "127.0.0.1");
    return getaddrinfo_a(GAI_NOWAIT, &block, 1, NULL) == 0 && wait_for(block) == 0 && has_address(block, "127.0.0.1") ? 0 : 3;
}

/* A thread of the C library's tells of it. */
static _Atomic int told;
static void on_notice(union sigval value)
{
    struct gaicb *block = value.sival_ptr;
    uintptr_t *object = GC_malloc(16);
    *object = (uintptr_t)block;
    told = gai_error(block) == 0 && *object == (uintptr_t)block ? 1 : 2;
}
static int tells(void)
{
    struct gaicb *block = block_for("127.0.0.1");
    struct sigevent notice = { .sigev_notify = SIGEV_THREAD, .sigev_notify_function = on_notice, .sigev_value.sival_ptr = block };
    close_pages();
    if (getaddrinfo_a(GAI_NOWAIT, &block, 1, &notice) != 0) return 1;
    while (told == 0) usleep(1000);
    return told == 1 && has_address(block, "127.0.0.1") ? 0 : 2;
}

/* Threads that wait for one beside each other. */
static void *suspends(void *data)
{
    return wait_for(data) != 0 ? NULL : data;
}
static int is_waited_for(void)
{
    enum { THREADS = 3 };
    pthread_t threads[THREADS];
    void *answer;
    struct gaicb *block = block_for("mpgc-of-no-machine");
    if (getaddrinfo_a(GAI_NOWAIT, &block, 1, NULL) != 0) return 1;
    for (int k = 0; k < THREADS; k++)
        if (pthread_create(&threads[k], NULL, suspends, block) != 0) return 2;
    usleep(20000);
    close_pages();
    while (gai_error(block) == EAI_INPROGRESS) let_on();
    for (int k = 0; k < THREADS; k++)
        if (pthread_join(threads[k], &answer) != 0 || answer) return 3;
    return 0;
}

/* A thread that is handed what came waits for the lock, which this one has; and this one is handed something meanwhile. */
static _Atomic int has_come, asks, may_ask, begins;
static void on_coming(union sigval value)
{
    (void)value;
    has_come = 1;
}
/* One that has come, and that nobody was handed: where it comes at once, who asked for it was. */
static struct gaicb *not_handed_on(void)
{
    struct gaicb *block;
    struct sigevent notice = { .sigev_notify = SIGEV_THREAD, .sigev_notify_function = on_coming };
    for (;;) {
        block = block_for("127.0.0.1");
        has_come = 0;
        if (getaddrinfo_a(GAI_NOWAIT, &block, 1, &notice) != 0) return NULL;
        while (!has_come) sched_yield();
        if (block->__return == EAI_INPROGRESS) return block;
        freeaddrinfo(block->ar_result);
    }
}
static void *ask_later(void *block)
{
    asks = gettid();
    while (!may_ask) sched_yield();
    begins = 1;
    return gai_error(block) == 0 ? block : NULL;
}
static void *ask_beside(void *block)
{
    may_ask = 1;
    while (!begins || !is_asleep(asks)) sched_yield();
    return gai_error(block) == 0 ? block : NULL;
}
static int asks_under_the_lock(void)
{
    pthread_t thread;
    void *answer;
    struct gaicb *other = block_for("127.0.0.2"), *block = not_handed_on();
    if (!block || getaddrinfo_a(GAI_WAIT, &other, 1, NULL) != 0) return 1;
    if (pthread_create(&thread, NULL, ask_later, block) != 0) return 2;
    while (!asks) sched_yield();
    close_pages();
    if (!is_closed(block) || GC_call_with_alloc_lock(ask_beside, other) != other) return 3;
    return pthread_join(thread, &answer) == 0 && answer == block && has_address(block, "127.0.0.1") ? 0 : 4;
}

/* Children of a fork beside a thread that asks again and again, and looks through many that were never asked for. */
static _Atomic int is_over;
static void *ask_again(void *block)
{
    while (!is_over) gai_error(block);
    return block;
}
static int forks(void)
{
    enum { MANY = 1000, FORKS = 60 };
    static struct gaicb *left[MANY];
    int status = 0;
    pthread_t thread;
    struct gaicb *block = block_for("127.0.0.1");
    for (int k = 0; k < MANY; k++) {
        left[k] = GC_malloc(sizeof **left);
        left[k]->ar_name = "127.0.0.1";
        if (getaddrinfo_a(GAI_NOWAIT, &left[k], 1, NULL) != 0) return 1;
    }
    if (pthread_create(&thread, NULL, ask_again, block) != 0) return 2;
    for (int k = 0; k < FORKS && status == 0; k++) {
        pid_t child = fork();
        if (child == 0) {
            alarm(60);
            _exit(gai_error(block));
        }
        waitpid(child, &status, 0);
    }
    is_over = 1;
    return pthread_join(thread, NULL) == 0 && status == 0 ? 0 : 3;
}

int main(void)
{
    GC_INIT();
    GC_enable_incremental();
    begin();
    if (!makes_pipe()) return 1;
    CHECK(ends_well(waits, 60));
    CHECK(ends_well(lists, 60));
    CHECK(ends_well(many, 60));
    CHECK(ends_well(cancels, 60));
    CHECK(ends_well(tells, 60));
    CHECK(ends_well(is_waited_for, 60));
    CHECK(ends_well(asks_under_the_lock, 60));
    CHECK(ends_well(forks, 100));
    unlink(pipe_path);
    rmdir(path);
    return check_ends();
}
