// Names of machines that are looked up beside the program (`getaddrinfo_a` and its kin). Threads of the C library do it, which block faults: where
// the program's block lies on a closed page they would end the program. So one in the heap is done by a block outside of it. Once it is done and
// the program asks for it, the program's own block says what came. Only in libmpgc.so.
#include "next.h"
#include <errno.h>
#include <netdb.h>
#include <pthread.h>
#include <stdlib.h>

// What stands for a block of the program's, until that was told. Who looks at it counts, and so does that it stands. The C library still compares
// the address of one that it has done: so none is another's before so many more have gone.
enum { KEPT = 64 };
struct lookup {
    struct lookup *next;
    struct gaicb *of, own;
    unsigned users;
};
static pthread_mutex_t lock = PTHREAD_MUTEX_INITIALIZER;
static struct lookup *all, *gone[KEPT];
static unsigned turn;

// In a child, where the thread that had the lock isn't, nor may have done what it was about.
static void begin_anew(void)
{
    lock = (pthread_mutex_t)PTHREAD_MUTEX_INITIALIZER;
    for (size_t k = 0; k < KEPT; k++) gone[k] = NULL;
}
__attribute__((constructor)) static void take_forks(void) { pthread_atfork(NULL, NULL, begin_anew); }

// With the lock.
static struct lookup *find(const struct gaicb *block)
{
    struct lookup *one = all;
    while (one && one->of != block) one = one->next;
    return one;
}

static void leave(struct lookup *one)
{
    if (!one || --one->users > 0) return;
    free(gone[turn]);
    gone[turn] = one;
    turn = (turn + 1) % KEPT;
}

static void take_away(struct lookup *one)
{
    struct lookup **at = &all;
    if (!one) return;
    while (*at != one) at = &(*at)->next;
    *at = one->next;
    leave(one);
}

// Without it.
static struct lookup *hold(const struct gaicb *block)
{
    if (!GC_is_heap_ptr(block)) return NULL;
    pthread_mutex_lock(&lock);
    struct lookup *one = find(block);
    if (one) one->users++;
    pthread_mutex_unlock(&lock);
    return one;
}

static void drop(const struct gaicb *block)
{
    if (!GC_is_heap_ptr(block)) return;
    pthread_mutex_lock(&lock);
    take_away(find(block));
    pthread_mutex_unlock(&lock);
}

// What came is handed on, if it has. The block's page is opened before: who has this lock mustn't wait for the layer's, since whoever has that one
// may come to wait for this.
static void settle(const struct gaicb *block)
{
    if (!GC_is_heap_ptr(block)) return;
    mpgc_will_write(block, sizeof *block);
    pthread_mutex_lock(&lock);
    struct lookup *one = find(block);
    int status = one ? __atomic_load_n(&one->own.__return, __ATOMIC_ACQUIRE) : EAI_INPROGRESS;
    if (status != EAI_INPROGRESS) {
        one->of->ar_result = one->own.ar_result;
        one->of->__return = status;
        take_away(one);
    }
    pthread_mutex_unlock(&lock);
    mpgc_wrote();
}

// By which block it is done; or null, where there is no memory.
static struct gaicb *stand_for(struct gaicb *block)
{
    if (!GC_is_heap_ptr(block)) return block;
    struct lookup *one = malloc(sizeof *one);
    drop(block);  // left from an earlier one, if the program never asked how that went
    if (one) *one = (struct lookup){ .of = block, .own = *block, .users = 1 };
    block->__return = one ? EAI_INPROGRESS : EAI_MEMORY;
    if (!one) return NULL;
    pthread_mutex_lock(&lock);
    one->next = all;
    all = one;
    pthread_mutex_unlock(&lock);
    return &one->own;
}

SHOWN int getaddrinfo_a(int mode, struct gaicb *list[restrict], int count, struct sigevent *restrict tells)
{
    NEXT(int, getaddrinfo_a, (int, struct gaicb **, int, struct sigevent *));
    struct gaicb *own[count > 0 ? count : 1];
    bool is_short = false;
    mpgc_may_call(tells);
    for (int k = 0; k < count; k++) {
        own[k] = stand_for(list[k]);
        if (list[k] && !own[k]) is_short = true;
    }
    int answer = next(mode, own, count, tells);
    for (int k = 0; k < count; k++) settle(list[k]);
    return is_short ? EAI_MEMORY : answer;
}

SHOWN int gai_error(struct gaicb *block)
{
    NEXT(int, gai_error, (struct gaicb *));
    settle(block);
    return next(block);
}

SHOWN int gai_cancel(struct gaicb *block)
{
    NEXT(int, gai_cancel, (struct gaicb *));
    struct lookup *one = hold(block);
    int answer = next(one ? &one->own : block);
    pthread_mutex_lock(&lock);
    leave(one);
    pthread_mutex_unlock(&lock);
    if (answer == EAI_CANCELED) drop(block);
    return answer;
}

SHOWN int gai_suspend(const struct gaicb *const list[], int count, const struct timespec *most)
{
    NEXT(int, gai_suspend, (const struct gaicb *const *, int, const struct timespec *));
    struct lookup *ones[count > 0 ? count : 1];
    const struct gaicb *own[count > 0 ? count : 1];
    for (int k = 0; k < count; k++) {
        ones[k] = hold(list[k]);
        own[k] = ones[k] ? &ones[k]->own : list[k];
    }
    int answer = next(own, count, most);
    pthread_mutex_lock(&lock);
    for (int k = 0; k < count; k++) leave(ones[k]);
    pthread_mutex_unlock(&lock);
    for (int k = 0; k < count; k++) settle(list[k]);
    return answer;
}
