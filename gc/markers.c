// Threads of the layer's own that mark beside the one that collects: how they come, wait, work and go. Trusted, not proved.
//
// What it owes the core, of mpheap.h:
//
//   "Calls on one heap are made by one thread at a time"    a marker does nothing but what it is told to, between `mpgc_tell` and
//                                                           `mpgc_await`, which the thread with the lock calls, or a marker that it waits for
//   "what was written before a handle comes to another      both are atomic operations on one word
//   thread has to be seen there"
//   "what came from lent memory has to be given back        the first marker alone makes these calls, and uses that memory as long as it
//   while it is used"                                       lives; so does the first marker of a child, where it finds the same, unless
//                                                           the fork came before all handles were open: then nothing of it is in use
//   "is opened once"                                        `has_opened`
//
// They are no threads of the program: the layer doesn't know them, so they aren't stopped, and nothing of theirs is a root. They touch
// no word of an object but by mpheap_help. They are made outside of a stop, since that takes locks of the C library; but not waited for longer
// than a moment, since a thread that waits for the layer's lock may have one that a new thread wants. All signals but faults are
// blocked. They end with the program's last thread, so that the process does, and in the child of a fork they aren't there.
// Counted under marking side by side.
#include "layer.h"
#include <errno.h>
#include <linux/futex.h>
#include <sys/mman.h>
#include <sys/syscall.h>
#include <time.h>
#include <unistd.h>

enum { MOMENT = 20000000 };  // nanoseconds
// So often a thread that waits looks, of so many glances each, before it sleeps: for a tenth of a millisecond, or some milliseconds while the
// markers are called up. Between two looks other threads are let go first.
enum { GLANCES = 500, LOOKS = 4, MANY_LOOKS = 400 };
#define STACK_BYTES ((size_t)2 << 20)
// What the core asks for: some hundred KB for each helper, and some 32 bytes a page. What isn't used takes no memory of the machine.
#define LENT_BYTES (((size_t)MPHEAP_MAX_HELPERS << 21) + MAX_PAGES * 64)
// In a heap of fewer pages there is little to mark.
enum { LEAST_PAGES = 512 };

// A thread that works by turns: so often it was told to, and has.
struct worker { _Atomic uint32_t told, done; };
static struct worker workers[MPHEAP_MAX_HELPERS];

static unsigned count;           // of markers that were made, and have not been told to go
static bool is_tried;            // no more will come
static _Atomic uint32_t alive;   // so many were made, and haven't ended
static _Atomic uint32_t here;    // and so many of these have begun
static atomic_bool go;           // they are to end
static atomic_bool is_up;        // they are called up
static void *lent;               // the first marker's memory
static atomic_bool has_opened;   // it has opened the handles of shares there, or as many as it could

// The collecting thread is the second worker, and so among the helpers where there are two or more.
static unsigned number_of(unsigned marker) { return marker < COLLECTING ? marker : marker + 1; }

// By the kernel's own call: waiting by the C library's a thread may be cancelled.
static long wait_while(_Atomic uint32_t *word, uint32_t value, const struct timespec *most)
{
    return mpgc_call_kernel(SYS_futex, word, FUTEX_WAIT_PRIVATE, value, most, NULL, 0);
}

static void wake(_Atomic uint32_t *word) { mpgc_call_kernel(SYS_futex, word, FUTEX_WAKE_PRIVATE, INT32_MAX, NULL, NULL, 0); }

static void change(_Atomic uint32_t *word, uint32_t value)
{
    *word = value;
    wake(word);
}

static void look(const _Atomic uint32_t *word, uint32_t than)
{
    for (int k = 0; k < GLANCES && *word == than; k++) __builtin_ia32_pause();
    if (*word == than) mpgc_call_kernel(SYS_sched_yield);
}

// The word becomes another one. It is looked at for a while, since a turn is short, and to be woken may take longer than that. Who is woken
// and finds it as it was looks again.
static uint32_t wait_for_other(_Atomic uint32_t *word, uint32_t than)
{
    for (int looks = 0; *word == than; looks++) {
        if (looks < (is_up ? MANY_LOOKS : LOOKS)) {
            look(word, than);
        } else {
            wait_while(word, than, NULL);
            looks = 0;
        }
    }
    return *word;
}

void mpgc_tell(unsigned which) { change(&workers[which].told, workers[which].told + 1); }

// It has done what it was told.
void mpgc_await(unsigned which)
{
    struct worker *one = &workers[which];
    for (uint32_t seen = one->done; seen != one->told; seen = one->done) (void)wait_for_other(&one->done, seen);
}

// This thread is told, by whom it waits for, and has done it.
void mpgc_await_telling(unsigned which) { (void)wait_for_other(&workers[which].told, workers[which].done); }
void mpgc_has_done(unsigned which) { change(&workers[which].done, workers[which].told); }

// Once in a process, and its children: what is open stays so.
static void use_lent(void)
{
    mpheap_use_memory(lent);
    if (!has_opened) mpgc_open_shares();
    has_opened = true;
}

static void *serve(void *number)
{
    unsigned which = (unsigned)(uintptr_t)number;
    mpheap_use_memory(NULL);  // the loader has made what the thread needs for it
    if (which == FIRST_MARKER) use_lent();
    here++;
    mpgc_call_kernel(SYS_futex, &here, FUTEX_WAKE_PRIVATE, INT32_MAX, NULL, NULL, 0);
    for (;;) {
        mpgc_await_telling(which);
        if (go) break;
        mpgc_work(which);
        mpgc_has_done(which);
    }
    here--;
    alive--;
    return NULL;
}

// Memory for the first marker, once in a process.
static bool has_memory(void)
{
    int flags = MAP_PRIVATE | MAP_ANONYMOUS | MAP_NORESERVE;
    if (lent) return true;
    void *at = mmap(NULL, LENT_BYTES, PROT_READ | PROT_WRITE, flags, -1, 0);
    if (at == MAP_FAILED) return false;
    mpheap_lend_mapping(at, LENT_BYTES);
    lent = at;
    return true;
}

static bool make(unsigned marker)
{
    unsigned which = number_of(marker);
    pthread_t thread;
    pthread_attr_t attributes;
    workers[which].done = workers[which].told;
    pthread_attr_init(&attributes);
    pthread_attr_setdetachstate(&attributes, PTHREAD_CREATE_DETACHED);
    pthread_attr_setstacksize(&attributes, STACK_BYTES);
    alive++;
    LENDING;
    bool is_made = mpgc_next_creator()(&thread, &attributes, serve, (void *)(uintptr_t)which) == 0;
    if (!is_made) alive--;
    pthread_attr_destroy(&attributes);
    return is_made;
}

static void make_all(unsigned wanted)
{
    sigset_t old;
    is_tried = true;
    go = false;
    if (!has_memory()) return;
    mpgc_block_signals(&old);
    while (count < wanted && make(count)) count++;
    mpgc_restore_signals(&old);
}

// Those that were made have begun, or a moment has passed.
static void let_begin(void)
{
    static const struct timespec most = { 0, MOMENT };
    for (uint32_t seen = here; seen < count; seen = here)
        if (wait_while(&here, seen, &most) != 0 && errno == ETIMEDOUT) return;
}

// Nobody would tell them to go where a thread asks for them that may be the last, and ends without a word.
static bool may_come(void)
{
    return !is_tried && alive == 0 && mpgc.is_threaded && mpgc.size >= LEAST_PAGES && !mpgc_self->is_late;
}

// Before the world is stopped, unless the program has stopped it. Where a thread or memory was refused, there are fewer markers or none, and
// it isn't tried again.
void mpgc_call_markers(void)
{
    unsigned wanted = mpgc_wanted_markers();
    if (mpgc_world_is_stopped() || wanted < 2 || !may_come()) return;
    make_all((wanted < MPHEAP_MAX_HELPERS ? wanted : MPHEAP_MAX_HELPERS) - 1);
    let_begin();
    mpgc_count_markers(count);
}

// So many there are beside the collecting thread: all that were made, or none as long as one of these hasn't begun.
unsigned mpgc_markers(void) { return here == count ? count : 0; }

// They will be told something soon: those that sleep are woken, and all look for longer until they stand down.
void mpgc_call_up(void)
{
    is_up = true;
    for (unsigned marker = 0; marker < count; marker++) wake(&workers[number_of(marker)].told);
}

void mpgc_stand_down(void) { is_up = false; }

// The program's last thread ends, and the process with these.
void mpgc_dismiss_markers(void)
{
    go = true;
    for (unsigned marker = 0; marker < count; marker++) mpgc_tell(number_of(marker));
    count = 0;
    is_tried = false;
}

// The first marker may have been in the middle of a call, so what is there is in no state to be used.
static void forget_memory(void)
{
    if (lent) munmap(lent, LENT_BYTES);
    lent = NULL;
    mpgc_forget_shares();
}

// In a child, where they aren't.
void mpgc_lose_markers(void)
{
    count = 0;
    alive = here = 0;
    is_tried = false;
    is_up = false;
    if (!has_opened) forget_memory();
}
