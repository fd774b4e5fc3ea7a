// Reading and writing beside the program (`aio_read` and its kin). Threads of the C library do it, which block faults: where the program's block
// or the place that is read to lies on a closed page they would end the program, or the kernel answer them EFAULT. So one in the heap is
// done by a block outside of it, into memory outside of it. Once it is done and the program asks for it, what came is copied, and the
// program's own block says how it went. Only in libmpgc.so.
#include "next.h"
#include <aio.h>
#include <errno.h>
#include <stdlib.h>
#include <string.h>

// What stands for a block of the program's. None is freed, so that a handler of signals may look through them; what was read to is, by the
// next request.
enum { IDLE, BUSY };
struct request {
    struct request *next;
    atomic_uintptr_t of;  // the program's block, IDLE or BUSY
    atomic_uint users;    // who looks at it, or waits for it: it comes to stand for no other meanwhile
    struct aiocb own;
    void *read, *into;    // where it is read to, if it is, and where that belongs
};
static _Atomic(struct request *) all;

static struct request *hold(const struct aiocb *block)
{
    for (struct request *one = atomic_load(&all); block && one; one = one->next) {
        if (atomic_load(&one->of) != (uintptr_t)block) continue;
        atomic_fetch_add(&one->users, 1);
        if (atomic_load(&one->of) == (uintptr_t)block) return one;
        atomic_fetch_sub(&one->users, 1);
    }
    return NULL;
}

static void let_go(struct request *one)
{
    if (one) atomic_fetch_sub(&one->users, 1);
}

// One that is BUSY, or null.
static struct request *take(void)
{
    struct request *taken = NULL;
    for (struct request *one = atomic_load(&all); one; one = one->next) {
        uintptr_t is = IDLE;
        if (!atomic_compare_exchange_strong(&one->of, &is, BUSY)) continue;
        free(one->read);
        one->read = NULL;
        if (taken || atomic_load(&one->users) != 0)
            atomic_store(&one->of, IDLE);
        else
            taken = one;
    }
    if (taken || !(taken = calloc(1, sizeof *taken))) return taken;
    atomic_store(&taken->of, BUSY);
    taken->next = atomic_load(&all);
    while (!atomic_compare_exchange_weak(&all, &taken->next, taken)) continue;
    return taken;
}

static void say(struct aiocb *block, ssize_t answer, int status)
{
    block->__return_value = answer;
    __atomic_store_n(&block->__error_code, status, __ATOMIC_RELEASE);
}

// Nothing stands for this block any more, if what does is done: what came is handed on, if anyone asks for it.
static void settle(const struct aiocb *block, bool is_asked_for)
{
    NEXT(int, aio_error, (const struct aiocb *));
    struct request *one = hold(block);
    if (!one) return;
    uintptr_t its = (uintptr_t)block;
    int kept = errno, status = next(&one->own);
    if (status != EINPROGRESS && atomic_compare_exchange_strong(&one->of, &its, BUSY)) {
        ssize_t answer = one->own.__return_value;
        if (is_asked_for && one->read && answer > 0) memcpy(one->into, one->read, (size_t)answer);
        if (is_asked_for) say((struct aiocb *)its, answer, status);
        atomic_store(&one->of, IDLE);
    }
    let_go(one);
    errno = kept;
}

// By which block it is done: this one, where the heap has nothing to do with it, or one that stands for it; or null, where there is no memory.
static struct aiocb *stand_for(struct aiocb *block, bool reads)
{
    void *into = (void *)(uintptr_t)block->aio_buf;
    bool reads_here = reads && GC_is_heap_ptr(into);
    settle(block, false);  // left from an earlier one, if the program never asked how that went
    if (!GC_is_heap_ptr(block) && !reads_here) return block;
    struct request *one = take();
    void *read = one && reads_here ? malloc(block->aio_nbytes + 1) : NULL;
    if (!one || (reads_here && !read)) {
        if (one) atomic_store(&one->of, IDLE);
        say(block, -1, EAGAIN);
        return NULL;
    }
    say(block, -1, EAGAIN);  // where the C library can't begin it either
    one->own = *block;
    one->read = read;
    one->into = into;
    if (read) one->own.aio_buf = read;
    say(block, 0, EINPROGRESS);
    atomic_store(&one->of, (uintptr_t)block);
    return &one->own;
}

static int no_memory(void)
{
    errno = EAGAIN;
    return -1;
}

#define BEGINS(name, words, values, reads) \
    SHOWN int name words \
    { \
        NEXT(int, name, words); \
        struct aiocb *their = block; \
        mpgc_may_call(&their->aio_sigevent); \
        if (!(block = stand_for(their, reads))) return no_memory(); \
        int answer = next values; \
        if (answer != 0) settle(their, true); \
        return answer; \
    }
BEGINS(aio_read, (struct aiocb *block), (block), true)
BEGINS(aio_write, (struct aiocb *block), (block), false)
BEGINS(aio_fsync, (int how, struct aiocb *block), (how, block), false)

SHOWN int lio_listio(int mode, struct aiocb *const list[restrict], int count, struct sigevent *restrict tells)
{
    NEXT(int, lio_listio, (int, struct aiocb *const *, int, struct sigevent *));
    struct aiocb *own[count > 0 ? count : 1];
    bool is_short = false;
    mpgc_may_call(tells);
    for (int k = 0; k < count; k++) {
        int what = list[k] ? list[k]->aio_lio_opcode : LIO_NOP;
        if (what != LIO_NOP) mpgc_may_call(&list[k]->aio_sigevent);
        own[k] = what == LIO_READ || what == LIO_WRITE ? stand_for(list[k], what == LIO_READ) : list[k];
        if (own[k] != list[k] && !own[k]) is_short = true;
    }
    int answer = next(mode, own, count, tells);
    for (int k = 0; k < count; k++) settle(list[k], true);
    return is_short ? no_memory() : answer;
}

SHOWN int aio_error(const struct aiocb *block)
{
    NEXT(int, aio_error, (const struct aiocb *));
    settle(block, true);
    return next(block);
}
SHOWN ssize_t aio_return(struct aiocb *block)
{
    NEXT(ssize_t, aio_return, (struct aiocb *));
    settle(block, true);
    return next(block);
}

SHOWN int aio_cancel(int file, struct aiocb *block)
{
    NEXT(int, aio_cancel, (int, struct aiocb *));
    struct request *one = hold(block);
    int answer = next(file, one ? &one->own : block);
    let_go(one);
    return answer;
}

// Those for which a thread waits, which may be cancelled there.
struct held { struct request **all; int count; };
static void let_all_go(const struct held *held)
{
    for (int k = 0; k < held->count; k++) let_go(held->all[k]);
}

SHOWN int aio_suspend(const struct aiocb *const list[], int count, const struct timespec *restrict most)
{
    NEXT(int, aio_suspend, (const struct aiocb *const *, int, const struct timespec *));
    struct request *ones[count > 0 ? count : 1];
    const struct aiocb *own[count > 0 ? count : 1];
    __attribute__((cleanup(let_all_go))) struct held held = { ones, 0 };
    for (; held.count < count; held.count++) {
        struct request *one = ones[held.count] = hold(list[held.count]);
        own[held.count] = one ? &one->own : list[held.count];
    }
    int answer = next(own, count, most);
    for (int k = 0; k < count; k++) settle(list[k], true);
    return answer;
}

// By the names of those for long files, which are the same here.
_Static_assert(sizeof(struct aiocb) == sizeof(struct aiocb64), "two blocks are one");
SHOWN int aio_read64(struct aiocb64 *block) { return aio_read((void *)block); }
SHOWN int aio_write64(struct aiocb64 *block) { return aio_write((void *)block); }
SHOWN int aio_fsync64(int how, struct aiocb64 *block) { return aio_fsync(how, (void *)block); }
SHOWN int aio_error64(const struct aiocb64 *block) { return aio_error((const void *)block); }
SHOWN ssize_t aio_return64(struct aiocb64 *block) { return aio_return((void *)block); }
SHOWN int aio_cancel64(int file, struct aiocb64 *block) { return aio_cancel(file, (void *)block); }
SHOWN int aio_suspend64(const struct aiocb64 *const list[], int count, const struct timespec *restrict most)
{
    return aio_suspend((const struct aiocb *const *)(const void *)list, count, most);
}
SHOWN int lio_listio64(int mode, struct aiocb64 *const list[restrict], int count, struct sigevent *restrict tells)
{
    return lio_listio(mode, (struct aiocb *const *)(const void *)list, count, tells);
}
