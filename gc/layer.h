// What the audited files of libmpgc know of each other. x86-64, Linux, the GNU C library. Trusted, and not proved.
//
// Below them stands the proved heap of mpheap_c, above them a C program that knows bdwgc's gc.h, and may do what it likes. The proofs hold
// for the program as far as these files keep what mpheap.h asks of a caller. They alone could lose an object or break memory: 3,905 lines
// of code in this folder, without blank ones and comments. Why names/ and kernel/ can't is said in front.h. This is all that they owe, in
// the order in which they are best read, and the head of each says by which lines it pays:
//
//   start.c                "`heap` points to an mpheap that was opened and has not been closed since", and is opened once
//   lock.c world.c         "Calls on one heap are made by one thread at a time", and what another thread writes falls into none that
//   behind.c delayed.c     reads the program's words
//   direct.c
//   signals.c              ".. and never from a signal handler that interrupted one of them", with CALL and GRANTED below, in which every
//                          call stands; and a write to a closed page reaches the barrier
//   protection.c pages.c   the barrier, which is the heart of the layer: "the address was told by mpheap_written first", while a cycle
//   pins.c                 marks; closed are pages of ordinary objects, and pages.c knows which; pins.c, to which the kernel writes
//   spare.c                the same, while none does
//   given.c                "the memory of a mapped heap's free pages may be given back to the system": of those alone
//   requests.c runs.c      "any 64-bit word may be put at any 8-aligned address of an object that is kept at that moment": what is given
//   reuse.c                out is an object that a request has just made, or the program just freed, once, and frees are the program's
//   roots.c threads.c      what keeps it: every word by which the program may still reach an object is a root at a collection's end,
//   stacks.c locals.c      of each thread
//   linked.c
//   collect.c cycle.c      the core's calls in an order that keeps the last three
//   markers.c rounds.c     the calls of several threads that mark, while the world is stopped
//   ending.c described.c   of objects that the core doesn't read, each word that points is a root at a cycle's end
//   readings.c
//   links.c                the layer's own writes to words of the program: in kept objects alone
//   table.c records.c      what links.c and described.c know, so that it keeps nothing
//
// "Each out parameter points to a number of its own, outside of every heap": they are locals and, for runs.c, the layer's own. "malloc,
// realloc and free are those of one allocator": the core asks for memory in start.c alone, and gives none back.
// Counted under the rest.
#ifndef MPGC_LAYER_H
#define MPGC_LAYER_H
#include "front.h"
#include <pthread.h>
#include <stdatomic.h>
#include <ucontext.h>
#include "mpheap.h"

_Static_assert(PAGE == MPHEAP_PAGE_BYTES && FIRST == MPHEAP_FIRST_ADDRESS && WORD == MPHEAP_WORD_BYTES && MAX_PAGES == MPHEAP_MOST_PAGES,
               "front.h has other measures than the core");
#define MAX_REQUEST_WORDS ((size_t)MPHEAP_MOST_REQUEST_WORDS)
#define BLOCK ((size_t)64)       // pages that are closed and opened together, where no page's own telling is owed
#define GROUP (MAX_PAGES / 64)  // 64 groups are all of the largest heap
_Static_assert(MAX_PAGES % 64 == 0, "the heap isn't 64 groups of pages");

#define LIKELY(x) __builtin_expect(!!(x), 1)

// Small objects that one call asked for. They are numbered as they are given out, and no number comes twice: those from `next` on, before
// `end`, are still to be given out, and each stands at the place that its number's last bits say.
enum { RUN_GRANULES = 128, RUN_SIZES = 13, RUN_OBJECTS = 64, PINS = 8 };
struct run {
    uint64_t next, end, bases[RUN_OBJECTS];
    uint64_t words;  // that each of those counted for which were asked for last: a figure alone
};

// Counted under threads.
// A thread that is known (threads.c). The lock is held where one is linked or unlinked, and by who reads another's.
enum thread_state { STARTING, RUNNING, BLOCKED, ENDED };
struct thread {
    struct run runs[2][RUN_SIZES];         // of each kind, and of each size that the core makes: the thread's own
    struct thread *next;
    pthread_t id;
    uint32_t number;                       // by which the kernel knows it
    volatile sig_atomic_t state;           // enum thread_state
    volatile bool is_suspended;            // by the program
    volatile sig_atomic_t takes_back;      // what it frees (reuse.c), or its runs change
    uint64_t taken_back;                   // so many words since the last collection: a figure alone
    bool is_told;                          // the program has told of it, by a name of bdwgc's
    bool is_detached;                      // nobody will ask what it answers
    bool is_late;                          // it has said goodbye before, and won't again
    unsigned holders;                      // so many are asking for it
    atomic_uint stop;                      // the last stop to which it has answered (world.c)
    atomic_bool stands;                    // it has answered, and hasn't gone on since
    const char *volatile top;              // while it is stopped, blocked or collects: what it had is from here to the bottom
    const char *volatile under;            // and, where `top` lies on a signal's stack: where that signal came
    const char *low, *bottom;              // its stack
    const char *alt_top;                   // the end of the signal's stack on which `top` lies, if it does
    char *pointer;                         // by which its thread-local data is found (locals.c)
    void ***keys;                          // what it has by pthread_setspecific
    void **late_keys;                      // the same of one that is late: this room goes with the record
    struct behind { const char *returns, *stack; volatile sig_atomic_t leaves; } behind;  // the last call that it made under the lock
    bool stands_behind;                    // it was stopped there (behind.c)
    struct pin { struct pages { size_t from, to; } pages; const char *frame; } pinned[PINS];  // that the kernel may write to, by whose call
    size_t pins;
    sigset_t signals;                      // that it blocks, once it runs
    void *(*start)(void *);
    void *data;                            // what it was given, until it runs, and what it answered, when it has ended
};

// Counted under the rest.
// All that the layer knows of the heap, in one piece, so that the collector can leave it out of the roots.
struct layer {
    mpheap heap;
    uint8_t slot;                      // the mutator by which the layer allocates and frees
    bool is_marking;                   // a cycle marks
    volatile sig_atomic_t is_calling;  // a call of the core is under way
    _Atomic uint64_t noted;            // groups with pages that were opened under a call, and are to be told: a bit each
    size_t all;                        // the pages that the core has: as many as the machine allows
    size_t size;                       // those that were ever used, of which the program is told
    uint64_t ended;                    // so many collections have
    uint8_t kind[MAX_PAGES];           // enum page_kind
    uint8_t granules[MAX_PAGES];       // of each object on the page, where it is one of runs; else 0
    uint8_t has_more[MAX_PAGES];       // more is known of an object there, or was, than mpgc_take_back asks for
    uint32_t filled[MAX_PAGES];        // behind how many collections, and one, objects of the page were last given to runs, or found kept
    uint64_t young[MAX_PAGES * PAGE / GRANULE / 64];  // and which: a bit a granule, at their bases, but not of those freed since
    volatile uint8_t is_closed[MAX_PAGES];
    volatile uint8_t is_noted[MAX_PAGES];
    uint16_t pins[MAX_PAGES];          // so many threads have the kernel write there: it makes no fault, so the page stays open, and dirty
    _Atomic uint64_t uncollectable[MAX_PAGES * PAGE / GRANULE / 64];  // a bit a granule, at the bases of such objects
    atomic_bool are_some_reserved;     // there was ever such a bit
    struct thread first;               // the thread that opened the heap
    struct thread *threads;            // all that are known
    bool is_threaded;                  // there was ever a second one
    bool forks;                        // pages that are opened are noted, and told when it is over: the child mightn't have all of a telling
    bool are_some_gone;                // threads that ended without a word, and are written down still
};
HIDDEN extern struct layer mpgc;

static inline bool mpgc_is_inside(uintptr_t address) { return address - FIRST < MAX_PAGES * PAGE; }
static inline size_t mpgc_page_of(uintptr_t address) { return (address - FIRST) / PAGE; }

// runs.c. Where among the runs of a kind that one is which has objects of so many granules or, where there are none, of the next size: in bytes.
HIDDEN extern const uint16_t mpgc_run_at[RUN_GRANULES + 1];
static inline struct run *mpgc_run_of(struct thread *thread, size_t granules, enum page_kind kind)
{
    return (struct run *)((char *)thread->runs[kind == POINTER_FREE] + mpgc_run_at[granules]);
}

// Counted under threads.
// start.c, threads.c and stacks.c. The heap is open, and this thread is known, by this record.
HIDDEN extern _Thread_local struct thread *mpgc_self __attribute__((tls_model("initial-exec")));
HIDDEN void mpgc_open(void);
static inline void mpgc_enter(void)
{
    if (!LIKELY(mpgc_self)) mpgc_open();
}
HIDDEN void mpgc_know_first(void);
typedef int mpgc_creator(pthread_t *thread, const pthread_attr_t *attributes, void *(*start)(void *), void *data);
HIDDEN mpgc_creator *mpgc_next_creator(void);
HIDDEN void mpgc_know_this(const struct GC_stack_base *base);
HIDDEN bool mpgc_first_is_at_home(void);
HIDDEN void mpgc_scan_threads(void (*scan)(const char *from, const char *to), void (*push)(uint64_t word));

// lock.c. One lock around the core and all that the layer knows; the thread that has it may take it again. Until there is a second
// thread it is counted, and costs no more.
HIDDEN void mpgc_lock_slowly(void);
HIDDEN void mpgc_unlock_slowly(void);
HIDDEN void mpgc_become_threaded(void);
HIDDEN bool mpgc_lock_in_child(void);
HIDDEN void mpgc_wake_another(void);
struct loan { bool is_one; sigset_t old; };  // or the lock itself
HIDDEN void mpgc_lock_to_write(struct loan *loan);
HIDDEN void mpgc_unlock_to_write(const struct loan *loan);
HIDDEN void mpgc_lend(void);
HIDDEN void mpgc_end_loan(void);
HIDDEN bool mpgc_lend_own(void);
HIDDEN void mpgc_end_own_loan(const bool *is_one);
#define LENDING __attribute__((cleanup(mpgc_end_own_loan), unused)) const bool is_own_loan = mpgc_lend_own()
HIDDEN uint32_t mpgc_my_number(void);
HIDDEN extern _Thread_local unsigned mpgc_lock_depth __attribute__((tls_model("initial-exec")));
static inline void mpgc_lock(void)
{
    if (LIKELY(!mpgc.is_threaded))
        mpgc_lock_depth++;
    else
        mpgc_lock_slowly();
}
static inline void mpgc_unlock(void)
{
    if (LIKELY(!mpgc.is_threaded))
        mpgc_lock_depth--;
    else
        mpgc_unlock_slowly();
}

// world.c. No other thread runs between these two, but those that are blocked (and touch no object). The lock is held and signals are
// blocked, and stop and start may be called again. `mpgc_make_stoppable` lets this thread be stopped.
HIDDEN void mpgc_stop_world(void);
HIDDEN void mpgc_start_world(void);
HIDDEN void mpgc_stop_to_collect(void);  // these two tell the program, which makes no request then
HIDDEN void mpgc_start_after_collecting(void);
HIDDEN bool mpgc_world_is_stopped(void);
HIDDEN void mpgc_make_stoppable(void);
HIDDEN void mpgc_wait_suspended(void);
HIDDEN struct thread *mpgc_record_of(pthread_t id);

// behind.c. Whether a signal came to this thread in the moment behind a call under the lock.
HIDDEN bool mpgc_is_behind(const struct thread *self, const ucontext_t *context);

// delayed.c
HIDDEN bool mpgc_is_held_back(const struct thread *one, int signal);
HIDDEN bool mpgc_is_leaving(const struct thread *one, int signal);

// Counted under the rest.
// Every call of the core stands between two of these: the fault handler then only notes a page, and it is told here. The inner ones stand
// where the lock is held.
HIDDEN void mpgc_tell_noted(void);
static inline void mpgc_inner_call_begins(void)
{
    if (mpgc.is_calling) mpgc_stop("a call was made under another one: by a signal handler, or after one that jumped out of it");
    mpgc.is_calling = 1;
    atomic_signal_fence(memory_order_seq_cst);
}
static inline void mpgc_inner_call_ends(void)
{
    atomic_signal_fence(memory_order_seq_cst);
    mpgc.is_calling = 0;
    if (!LIKELY(!atomic_load_explicit(&mpgc.noted, memory_order_relaxed))) mpgc_tell_noted();
}
static inline void mpgc_call_begins(void)
{
    mpgc_lock();
    mpgc_inner_call_begins();
}
static inline void mpgc_call_ends(void)
{
    mpgc_inner_call_ends();
    mpgc_unlock();
}

// One call, and what it answered.
#define CALL(answer, call) do { \
        mpgc_call_begins(); \
        (answer) = (call); \
        mpgc_call_ends(); \
    } while (0)

// One call of the collector, which has to be granted.
#define GRANTED(call) do { \
        uint32_t status_; \
        CALL(status_, call); \
        if (status_ != MPHEAP_OK) mpgc_stop("the heap refused " #call); \
    } while (0)

// requests.c and runs.c
HIDDEN void mpgc_free_in(uint64_t base);
HIDDEN uint8_t mpgc_size_for(size_t granules);
HIDDEN bool mpgc_fill_run(struct run *run, size_t granules, enum page_kind kind);
HIDDEN void mpgc_empty_runs(struct thread *thread);
HIDDEN void mpgc_push_runs(const struct thread *thread, void (*push)(uint64_t word));

// reuse.c
HIDDEN void mpgc_note_young(const uint64_t *bases, uint64_t count);
HIDDEN void mpgc_note_freed(uintptr_t base);
HIDDEN bool mpgc_take_back(uintptr_t base);

// Counted under threads.
// locals.c
HIDDEN void mpgc_scan_locals(const struct thread *thread, size_t module, size_t bytes, void (*scan)(const char *from, const char *to));
HIDDEN bool mpgc_can_be_read(const char *at);
HIDDEN void mpgc_scan_room_of_locals(const struct thread *thread, void (*scan)(const char *from, const char *to));
HIDDEN void mpgc_scan_keys(const struct thread *thread, void (*scan)(const char *from, const char *to));
HIDDEN void mpgc_set_keys(struct thread *thread);
HIDDEN int mpgc_set_own_key(pthread_key_t key, const void *value);
HIDDEN void mpgc_drop_keys(void);
HIDDEN void mpgc_free_keys(void **room);

// Counted under roots, links, finalizers and kinds.
// Where the lock is held: whether the object is marked.
static inline bool mpgc_is_marked_here(uintptr_t base)
{
    mpgc_inner_call_begins();
    bool answer = mpheap_is_marked(&mpgc.heap, base);
    mpgc_inner_call_ends();
    return answer;
}

// table.c
struct entry { struct entry *next; uintptr_t number; };
struct table { struct entry **chains; size_t count, room; };
HIDDEN struct entry **mpgc_place(const struct table *table, uintptr_t number);
HIDDEN bool mpgc_put(struct table *table, struct entry *one);
HIDDEN struct entry *mpgc_take(struct table *table, struct entry **at);
HIDDEN void mpgc_push(struct entry **list, struct entry *one);
HIDDEN struct entry *mpgc_pop(struct entry **list);
HIDDEN void mpgc_free_all(struct entry **list);
HIDDEN void mpgc_count_entry(void);

// records.c. A described object, whose words are read as its descriptor says.
struct described {
    GC_word descriptor;
    uint32_t granule;       // at which it begins: one more than there are before it; 0 where it was freed
    uint32_t step;          // bytes to which the descriptor applies, again and again
    uint32_t bytes;         // of all of these
    int32_t kind;
    uint32_t reading;       // in which it was read last, or will be
    uint32_t next_to_read;
};
_Static_assert(MAX_PAGES * PAGE <= (uint64_t)1 << 32, "an object may have more bytes than its record tells");
static inline uintptr_t mpgc_base_of(const struct described *one) { return FIRST + (one->granule - (size_t)1) * GRANULE; }
struct records {
    struct described *at;
    size_t count, room, gone;
    unsigned long moves;    // so often they got other places
};
HIDDEN extern struct records mpgc_records;
HIDDEN bool mpgc_has_described(size_t page);
HIDDEN struct described *mpgc_described_at(uintptr_t base);
HIDDEN bool mpgc_add_record(const struct described *one);
HIDDEN void mpgc_drop_record(struct described *one);
HIDDEN void mpgc_keep_records(bool (*stays)(const struct described *one));

// described.c
HIDDEN void mpgc_forget_described(uintptr_t base);
HIDDEN bool mpgc_is_read_to(uintptr_t base, size_t bytes);
HIDDEN void mpgc_begin_reading(void);
HIDDEN bool mpgc_was_read(const struct described *one);
HIDDEN void mpgc_will_be_read(struct described *one);
HIDDEN bool mpgc_read_those(uint64_t *left);
HIDDEN bool mpgc_has_led_on(void);

// ending.c and readings.c
HIDDEN void mpgc_end_marks(void);
HIDDEN void mpgc_mark_words(void);
HIDDEN bool mpgc_read_described(bool newest_first);
HIDDEN bool mpgc_read_some_described(void);
HIDDEN void mpgc_drop_described(void);

// Counted under the rest.
// pages.c
HIDDEN bool mpgc_may_have(size_t pages);
HIDDEN bool mpgc_learn(uintptr_t base, size_t words, enum page_kind kind);
HIDDEN void mpgc_set_uncollectable(uintptr_t base, bool on);

// protection.c
HIDDEN void mpgc_let_write(size_t page);
HIDDEN void mpgc_holds_ordinary(size_t page);
HIDDEN void mpgc_holds_pointer_free(size_t page);
HIDDEN void mpgc_start_closing(void);
HIDDEN bool mpgc_close_some(void);
HIDDEN void mpgc_tell_open(void);
HIDDEN bool mpgc_is_one_to_close(void);
HIDDEN struct pages mpgc_close_lowest(size_t most);
HIDDEN bool mpgc_is_pinned(void);
HIDDEN void mpgc_tell_pinned(void);
HIDDEN void mpgc_lower_to(size_t page);
HIDDEN void mpgc_stop_closing(void);
HIDDEN void mpgc_open_all(void);

// pins.c
HIDDEN void mpgc_drop_pins(struct thread *thread);
HIDDEN void mpgc_keep_own_pins(void);

// signals.c. The C library's sigaction by its other name, since kernel/handlers.c takes that one for the program.
extern int __sigaction(int number, const struct sigaction *next, struct sigaction *old);
HIDDEN void mpgc_take_faults(void);
HIDDEN void mpgc_block_handlers(sigset_t *old);

// Counted under marking side by side.
// markers.c and rounds.c. Workers have numbers: the first marker, the thread that collects, and the other markers.
enum { FIRST_MARKER, COLLECTING };
HIDDEN void mpgc_call_markers(void);
HIDDEN unsigned mpgc_markers(void);
HIDDEN void mpgc_tell(unsigned which);
HIDDEN void mpgc_await(unsigned which);
HIDDEN void mpgc_await_telling(unsigned which);
HIDDEN void mpgc_has_done(unsigned which);
HIDDEN void mpgc_open_shares(void);
HIDDEN void mpgc_forget_shares(void);
HIDDEN void mpgc_work(unsigned which);
HIDDEN void mpgc_call_up(void);
HIDDEN void mpgc_stand_down(void);
HIDDEN void mpgc_dismiss_markers(void);
HIDDEN void mpgc_lose_markers(void);
HIDDEN uint64_t mpgc_begin_rounds(void);
HIDDEN uint64_t mpgc_mark_in_rounds(void);

// Counted under roots, links, finalizers and kinds.
// roots.c
HIDDEN void mpgc_read_roots(void);
HIDDEN void mpgc_take_roots(bool on, bool is_end);
HIDDEN bool mpgc_takes_roots(void);
HIDDEN void mpgc_empty_stack(void);
HIDDEN bool mpgc_has_pushed(void);
HIDDEN bool mpgc_with_registers(bool (*work)(void *), void *data);
HIDDEN bool mpgc_from_here(bool (*work)(void *), void *data);

// Counted under the rest.
// collect.c, spare.c and links.c. What collects runs by mpgc_from_here.
HIDDEN void mpgc_end_collection(bool is_full, double start);
HIDDEN void mpgc_make_spare(void);
HIDDEN void mpgc_need_full_cycle(void);
HIDDEN void mpgc_decide_links(bool is_long);
HIDDEN void mpgc_clear_links(void);

#endif
