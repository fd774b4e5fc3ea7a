/* What is submitted to the kernel (`io_submit`, io_uring), by blocks and into places in ordinary objects, whose pages are closed before, or while the
 * kernel has still to write there. Where the kernel has no such calls nothing is tried. */
#define _GNU_SOURCE
#include <errno.h>
#include <fcntl.h>
#include <linux/aio_abi.h>
#include <linux/io_uring.h>
#include <poll.h>
#include <stdint.h>
#include <sys/mman.h>
#include <sys/syscall.h>
#include <sys/uio.h>
#include "check.h"
#include "cycle.h"
#include "watch.h"

static int at;
static void *place(void) { return ordinary[at = (at + 2) % COUNT]; }

/* Cycles come and go, and one marks. */
static void close_pages(void)
{
    for (int k = 0; k < 3; k++) {
        end();
        GC_gcollect();
        GC_start_incremental_collection();
    }
}

static int file_with(const char *text)
{
    int file = memfd_create("submitted", 0);
    if (file < 0 || write(file, text, strlen(text)) != (ssize_t)strlen(text)) exit(1);
    return file;
}

static struct iocb *block_for(int file, int what, void *bytes, size_t count)
{
    struct iocb *block = place();
    memset(block, 0, sizeof *block);
    *block = (struct iocb){ .aio_fildes = (unsigned)file, .aio_lio_opcode = (uint16_t)what, .aio_buf = (uintptr_t)bytes, .aio_nbytes = count };
    return block;
}

/* Blocks, the list of them, places that are read to and what is told of it. */
static int by_blocks(void)
{
    enum { BLOCKS = 3, TOLD = 300, BYTES = 10 };
    int file = file_with("0123456789");
    aio_context_t *context = place();
    struct iocb **list = place();
    struct iovec *parts = place();
    *context = 0;
    close_pages();
    if (syscall(SYS_io_setup, TOLD, context) != 0) return errno == ENOSYS ? 0 : 1;
    char *first = place(), *second = place(), *third = GC_malloc(3 * 4096);
    struct io_event *told = GC_malloc(TOLD * sizeof *told);
    parts[0] = (struct iovec){ second, 4 };
    parts[1] = (struct iovec){ third + 2 * 4096, 6 };
    list[0] = block_for(file, IOCB_CMD_PREAD, first, BYTES);
    list[1] = block_for(file, IOCB_CMD_PREADV, parts, 2);
    list[2] = block_for(file, IOCB_CMD_PWRITE, strcpy(place(), "written"), 7);
    list[2]->aio_offset = 100;
    close_pages();
    if (syscall(SYS_io_submit, *context, (long)BLOCKS, list) != BLOCKS) return 2;
    close_pages();
    if (syscall(SYS_io_getevents, *context, (long)BLOCKS, (long)TOLD, told, NULL) != BLOCKS) return 3;
    for (int k = 0; k < BLOCKS; k++)
        if (told[k].res != (told[k].obj == (uintptr_t)list[2] ? 7 : BYTES)) return 4;
    if (memcmp(first, "0123456789", BYTES) != 0 || memcmp(second, "0123", 4) != 0 || memcmp(third + 2 * 4096, "456789", 6) != 0) return 5;
    return syscall(SYS_io_destroy, *context) == 0 ? 0 : 6;
}

/* So many are told of at once that they stand on several pages. */
static int of_many(void)
{
    enum { MANY = 300 };
    int file = file_with("0123456789");
    aio_context_t context = 0;
    struct iocb **list = GC_malloc(MANY * sizeof *list);
    struct io_event *told = GC_malloc(MANY * sizeof *told);
    if (syscall(SYS_io_setup, MANY, &context) != 0) return errno == ENOSYS ? 0 : 1;
    for (int k = 0; k < MANY; k++) {
        list[k] = GC_malloc(sizeof **list);
        *list[k] = (struct iocb){ .aio_fildes = (unsigned)file, .aio_lio_opcode = IOCB_CMD_PREAD, .aio_buf = (uintptr_t)GC_malloc(16), .aio_nbytes = 10 };
    }
    close_pages();
    if (syscall(SYS_io_submit, context, (long)MANY, list) != MANY) return 2;
    close_pages();
    if (syscall(SYS_io_getevents, context, (long)MANY, (long)MANY, told, NULL) != MANY) return 3;
    for (int k = 0; k < MANY; k++)
        if (told[k].res != 10 || memcmp((void *)(uintptr_t)list[k]->aio_buf, "0123456789", 10) != 0) return 4;
    return 0;
}

/* A ring, without the library that makes one. */
static struct ring {
    int file;
    unsigned *tail, *mask, *array, *told_head, *told_tail, *told_mask;
    struct io_uring_sqe *asked;
    struct io_uring_cqe *told;
} ring;
static int makes_ring(void)
{
    struct io_uring_params *wanted = place();
    close_pages();
    memset(wanted, 0, sizeof *wanted);
    if ((ring.file = (int)syscall(SYS_io_uring_setup, 8, wanted)) < 0) return 0;
    size_t bytes = wanted->cq_off.cqes + wanted->cq_entries * sizeof *ring.told, others = wanted->sq_off.array + wanted->sq_entries * sizeof(unsigned);
    char *all = mmap(NULL, bytes > others ? bytes : others, PROT_READ | PROT_WRITE, MAP_SHARED, ring.file, IORING_OFF_SQ_RING);
    ring.asked = mmap(NULL, wanted->sq_entries * sizeof *ring.asked, PROT_READ | PROT_WRITE, MAP_SHARED, ring.file, IORING_OFF_SQES);
    if (!(wanted->features & IORING_FEAT_SINGLE_MMAP) || all == MAP_FAILED || ring.asked == MAP_FAILED) return 0;
    ring.tail = (unsigned *)(void *)(all + wanted->sq_off.tail);
    ring.mask = (unsigned *)(void *)(all + wanted->sq_off.ring_mask);
    ring.array = (unsigned *)(void *)(all + wanted->sq_off.array);
    ring.told_head = (unsigned *)(void *)(all + wanted->cq_off.head);
    ring.told_tail = (unsigned *)(void *)(all + wanted->cq_off.tail);
    ring.told_mask = (unsigned *)(void *)(all + wanted->cq_off.ring_mask);
    ring.told = (struct io_uring_cqe *)(void *)(all + wanted->cq_off.cqes);
    return 1;
}
static int asks(const struct io_uring_sqe *one)
{
    unsigned k = *ring.tail & *ring.mask;
    ring.asked[k] = *one;
    ring.array[k] = k;
    __atomic_store_n(ring.tail, *ring.tail + 1, __ATOMIC_RELEASE);
    return syscall(SYS_io_uring_enter, ring.file, 1, 0, 0, NULL, 0) == 1;
}
static int answer(void)
{
    while (__atomic_load_n(ring.told_tail, __ATOMIC_ACQUIRE) == *ring.told_head)
        if (syscall(SYS_io_uring_enter, ring.file, 0, 1, IORING_ENTER_GETEVENTS, NULL, 0) < 0 && errno != EINTR) return -1;
    int said = ring.told[*ring.told_head & *ring.told_mask].res;
    __atomic_store_n(ring.told_head, *ring.told_head + 1, __ATOMIC_RELEASE);
    return said;
}

/* One that has to wait until cycles have come and gone, and places that the kernel knows beforehand. */
static int by_ring(void)
{
    int ends[2], file = file_with("0123456789");
    char *first = place(), *second = place(), *known = GC_malloc(3 * 4096);
    struct iovec *parts = place();
    if (!makes_ring()) return errno == ENOSYS || errno == EPERM ? 0 : 1;
    if (pipe(ends) != 0) return 2;
    close_pages();
    if (!asks(&(struct io_uring_sqe){ .opcode = IORING_OP_READ, .fd = ends[0], .addr = (uintptr_t)first, .len = 2000, .off = (uint64_t)-1 })) return 3;
    close_pages();
    if (write(ends[1], "by a ring", 9) != 9 || answer() != 9 || memcmp(first, "by a ring", 9) != 0) return 4;
    if (!asks(&(struct io_uring_sqe){ .opcode = IORING_OP_READ, .fd = file, .addr = (uintptr_t)second, .len = 10, .flags = IOSQE_ASYNC })) return 5;
    if (answer() != 10 || memcmp(second, "0123456789", 10) != 0) return 6;
    parts[0] = (struct iovec){ known, 3 * 4096 };
    close_pages();
    if (syscall(SYS_io_uring_register, ring.file, IORING_REGISTER_BUFFERS, parts, 1) != 0) return errno == ENOMEM ? 0 : 7;
    close_pages();
    if (!asks(&(struct io_uring_sqe){ .opcode = IORING_OP_READ_FIXED, .fd = file, .addr = (uintptr_t)known + 4090, .len = 10 })) return 8;
    return answer() == 10 && memcmp(known + 4090, "0123456789", 10) == 0 ? 0 : 9;
}

/* The kernel writes the only pointer to an object, where the cycle has been. */
static int of_pointers(void)
{
    int ends[2], cleared = 0;
    uintptr_t **into = place();
    if (!makes_ring()) return errno == ENOSYS || errno == EPERM ? 0 : 1;
    if (pipe(ends) != 0) return 2;
    for (int turn = 0; turn < 20; turn++) {
        uintptr_t *object = GC_malloc(64);
        *object = 77;
        *into = NULL;
        if (write(ends[1], &object, sizeof object) != sizeof object) return 3;
        GC_start_incremental_collection();
        for (int k = 0; k < turn; k++) GC_collect_a_little();
        if (!asks(&(struct io_uring_sqe){ .opcode = IORING_OP_READ, .fd = ends[0], .addr = (uintptr_t)into, .len = 8, .off = (uint64_t)-1 })) return 4;
        object = NULL;
        if (answer() != sizeof object) return 5;
        end();
        for (int k = 0; k < 100; k++) memset(GC_malloc(64), 0, 64);
        cleared += **into != 77;
    }
    return cleared == 0 ? 0 : 6;
}

int main(void)
{
    GC_INIT();
    GC_enable_incremental();
    begin();
    CHECK(ends_well(by_blocks, 60));
    CHECK(ends_well(of_many, 60));
    CHECK(ends_well(by_ring, 60));
    CHECK(ends_well(of_pointers, 60));
    return check_ends();
}
