/* Reading and writing beside the program (`aio_read` and its kin), by blocks and into places in ordinary objects, whose pages are closed while
 * threads of the C library write there. */
#define _GNU_SOURCE
#include <aio.h>
#include <errno.h>
#include <fcntl.h>
#include <signal.h>
#include <stdint.h>
#include <time.h>
#include "check.h"
#include "cycle.h"
#include "watch.h"

static int at;
static void *place(void) { return ordinary[at = (at + 2) % COUNT]; }

static struct aiocb *block_for(int file, void *bytes, size_t count)
{
    struct aiocb *block = place();
    memset(block, 0, sizeof *block);
    block->aio_fildes = file;
    block->aio_buf = bytes;
    block->aio_nbytes = count;
    block->aio_sigevent.sigev_notify = SIGEV_NONE;
    return block;
}

/* Cycles come and go, and one marks. */
static void close_pages(void)
{
    for (int k = 0; k < 3; k++) {
        end();
        GC_gcollect();
        GC_start_incremental_collection();
    }
}

static int wait_for(const struct aiocb *block)
{
    int status;
    while ((status = aio_error(block)) == EINPROGRESS) aio_suspend(&block, 1, NULL);
    return status;
}

static int file_with(const char *text)
{
    char path[] = "/tmp/mpgc.XXXXXX";
    int file = mkstemp(path);
    if (file < 0 || unlink(path) != 0 || write(file, text, strlen(text)) != (ssize_t)strlen(text)) exit(1);
    return file;
}

/* One that has to wait, until the page is closed. */
static int reads(void)
{
    int ends[2];
    char *into = place();
    if (pipe(ends) != 0) return 1;
    struct aiocb *block = block_for(ends[0], into, 2000);
    if (aio_read(block) != 0 || aio_error(block) != EINPROGRESS) return 2;
    close_pages();
    if (write(ends[1], "from beside", 11) != 11 || wait_for(block) != 0) return 3;
    if (aio_return(block) != 11 || memcmp(into, "from beside", 11) != 0 || aio_error(block) != 0) return 4;
    char outside[20];
    *block = (struct aiocb){ .aio_fildes = ends[0], .aio_buf = outside, .aio_nbytes = sizeof outside, .aio_sigevent.sigev_notify = SIGEV_NONE };
    if (aio_read(block) != 0) return 5;
    close_pages();
    if (write(ends[1], "more", 4) != 4 || wait_for(block) != 0 || aio_return(block) != 4 || memcmp(outside, "more", 4) != 0) return 6;
    static struct aiocb other;
    other = (struct aiocb){ .aio_fildes = ends[0], .aio_buf = into = place(), .aio_nbytes = 20, .aio_sigevent.sigev_notify = SIGEV_NONE };
    if (aio_read(&other) != 0) return 7;
    close_pages();
    return write(ends[1], "last", 4) == 4 && wait_for(&other) == 0 && aio_return(&other) == 4 && memcmp(into, "last", 4) == 0 ? 0 : 8;
}

static int writes(void)
{
    int file = file_with("");
    char *from = place(), came[20];
    strcpy(from, "written");
    struct aiocb *block = block_for(file, from, 7);
    close_pages();
    if (aio_write(block) != 0 || wait_for(block) != 0 || aio_return(block) != 7) return 1;
    if (pread(file, came, sizeof came, 0) != 7 || memcmp(came, "written", 7) != 0) return 2;
    if (aio_fsync(O_SYNC, block) != 0) return 3;
    close_pages();
    return wait_for(block) == 0 && aio_return(block) == 0 ? 0 : 4;
}

/* What can't be done says so by its block. */
static int refuses(void)
{
    struct aiocb *block = block_for(-1, place(), 100);
    int ends[2];
    if (aio_read(block) == 0 ? wait_for(block) != EBADF || aio_return(block) != -1 : aio_error(block) == EINPROGRESS) return 1;
    if (pipe(ends) != 0) return 2;
    *block = (struct aiocb){ .aio_fildes = ends[0], .aio_buf = place(), .aio_nbytes = 100, .aio_reqprio = -1 };
    if (aio_read(block) != -1 || errno != EINVAL || aio_error(block) != EINVAL) return 3;
    struct aiocb *first = block_for(ends[0], place(), 100), *second = block_for(ends[0], place(), 100);
    if (aio_read(first) != 0 || aio_read(second) != 0) return 4;
    while (aio_cancel(ends[0], second) != AIO_CANCELED) continue;
    if (aio_error(second) != ECANCELED || aio_return(second) != -1) return 5;
    return write(ends[1], "x", 1) == 1 && wait_for(first) == 0 && aio_return(first) == 1 ? 0 : 6;
}

static int lists(void)
{
    int file = file_with("0123456789"), ends[2];
    if (pipe(ends) != 0) return 1;
    struct aiocb **list = place(), *nothing = block_for(file, place(), 10);
    nothing->aio_lio_opcode = LIO_NOP;
    for (int k = 0; k < 5; k++) {
        list[k] = block_for(file, place(), 2);
        list[k]->aio_offset = 2 * k;
        list[k]->aio_lio_opcode = LIO_READ;
    }
    list[5] = NULL;
    list[6] = nothing;
    close_pages();
    if (lio_listio(LIO_WAIT, list, 7, NULL) != 0) return 2;
    for (int k = 0; k < 5; k++) {
        char wanted[2] = { (char)('0' + 2 * k), (char)('1' + 2 * k) };
        if (memcmp((void *)(uintptr_t)list[k]->aio_buf, wanted, 2) != 0 || aio_error(list[k]) != 0 || aio_return(list[k]) != 2) return 3;
    }
    list[0]->aio_fildes = ends[0];
    if (lio_listio(LIO_NOWAIT, list, 1, NULL) != 0) return 4;
    const struct aiocb *wanted[2] = { NULL, list[0] };
    if (aio_suspend(wanted, 2, &(struct timespec){ 0, 1000 }) != -1 || errno != EAGAIN) return 5;
    close_pages();
    if (write(ends[1], "ab", 2) != 2) return 6;
    while (aio_suspend(wanted, 2, NULL) != 0) continue;
    return memcmp((void *)(uintptr_t)list[0]->aio_buf, "ab", 2) == 0 && aio_return(list[0]) == 2 ? 0 : 7;
}

/* The handler asks how it went, as it may. */
static volatile sig_atomic_t came;
static void on_signal(int number, siginfo_t *told, void *context)
{
    (void)number, (void)context;
    struct aiocb *block = told->si_value.sival_ptr;
    came = aio_error(block) == 0 ? (int)aio_return(block) : -1;
}
static int signals(void)
{
    int ends[2];
    struct sigaction action = { .sa_sigaction = on_signal, .sa_flags = SA_SIGINFO };
    char *into = place();
    if (pipe(ends) != 0 || sigaction(SIGUSR1, &action, NULL) != 0) return 1;
    struct aiocb *block = block_for(ends[0], into, 2000);
    block->aio_sigevent = (struct sigevent){ .sigev_notify = SIGEV_SIGNAL, .sigev_signo = SIGUSR1, .sigev_value.sival_ptr = block };
    if (aio_read(block) != 0) return 2;
    close_pages();
    if (write(ends[1], "signal", 6) != 6) return 3;
    while (came == 0) usleep(1000);
    return came == 6 && memcmp(into, "signal", 6) == 0 ? 0 : 4;
}

/* Many at once, and again and again by the same blocks, of which some are never asked for: those of one file are done one after the other. */
static int many(void)
{
    enum { TURNS = 40, AT_ONCE = 20 };
    int file = file_with("0123456789");
    struct aiocb *blocks[AT_ONCE];
    for (int k = 0; k < AT_ONCE; k++) blocks[k] = block_for(file, place(), 10);
    for (int turn = 0; turn < TURNS; turn++) {
        for (int k = 0; k < AT_ONCE; k++) {
            memset((void *)(uintptr_t)blocks[k]->aio_buf, 0, 10);
            blocks[k]->aio_nbytes = (size_t)(turn % 10 + 1);
            if (aio_read(blocks[k]) != 0) return 1;
        }
        if (turn % 4 == 0) close_pages();
        for (int k = turn % 4 == 1 ? AT_ONCE - 1 : 0; k < AT_ONCE; k++) {
            if (wait_for(blocks[k]) != 0 || aio_return(blocks[k]) != turn % 10 + 1) return 2;
            if (memcmp((void *)(uintptr_t)blocks[k]->aio_buf, "0123456789", (size_t)(turn % 10 + 1)) != 0) return 3;
        }
    }
    return 0;
}

int main(void)
{
    GC_INIT();
    GC_enable_incremental();
    begin();
    CHECK(ends_well(reads, 60));
    CHECK(ends_well(writes, 60));
    CHECK(ends_well(refuses, 60));
    CHECK(ends_well(lists, 60));
    CHECK(ends_well(signals, 60));
    CHECK(ends_well(many, 60));
    return check_ends();
}
