// Small objects are asked for many at a time, by each thread for itself, and then given out one by one. Trusted, not proved.
//
// What it owes the core, of mpheap.h:
//
//   "any 64-bit word may be put at any 8-aligned         what a run has and didn't give out is a root (mpgc_push_runs), of each thread, at
//   address of an object that is kept at that moment"    each collection's end: so a thread may be stopped in the middle of a request
//                                                        (requests.c), and needn't look whether a collection was since
//   "Each out parameter points to a number of its own, outside of every heap"   locals
//   kinds are as the page's                              mpgc_learn, for each object
// Counted under the rest.
#include "layer.h"

enum { INTO = 0, RUN_WORDS = 256 };  // a register, and so many words are asked for at once

// In granules, the sizes of the core's small objects.
static const uint8_t sizes[RUN_SIZES] = { 1, 2, 3, 4, 6, 8, 12, 16, 24, 32, 48, 64, RUN_GRANULES };

#define AT(number) ((number) * sizeof(struct run))
#define TWO(number) AT(number), AT(number)
#define FOUR(number) TWO(number), TWO(number)
#define EIGHT(number) FOUR(number), FOUR(number)
#define SIXTEEN(number) EIGHT(number), EIGHT(number)
#define SIXTY_FOUR(number) SIXTEEN(number), SIXTEEN(number), SIXTEEN(number), SIXTEEN(number)
const uint16_t mpgc_run_at[RUN_GRANULES + 1] = {
    AT(0), AT(0), AT(1), AT(2), AT(3), TWO(4), TWO(5), FOUR(6), FOUR(7), EIGHT(8), EIGHT(9), SIXTEEN(10), SIXTEEN(11), SIXTY_FOUR(12)
};

// Of how many granules the core makes an object of so many.
uint8_t mpgc_size_for(size_t granules) { return sizes[mpgc_run_at[granules] / sizeof(struct run)]; }

// No more than what may be asked for before the next look at what is due, but one.
static size_t most_of(size_t words)
{
    uint64_t left = mpgc_figures.next > mpgc_figures.since ? mpgc_figures.next - mpgc_figures.since : 0;
    size_t most = (left < RUN_WORDS ? left : RUN_WORDS) / words;
    return most > RUN_OBJECTS ? RUN_OBJECTS : most == 0 ? 1 : most;
}

static uint64_t ask(uint64_t *bases, size_t words, enum page_kind kind)
{
    size_t most = most_of(words);
    uint64_t count = 0;
    mpgc_inner_call_begins();
    (void)(kind == ORDINARY ? mpheap_alloc_many(&mpgc.heap, mpgc.slot, INTO, words, bases, most, &count)
                            : mpheap_alloc_pointer_free_many(&mpgc.heap, mpgc.slot, INTO, words, bases, most, &count));
    mpgc_inner_call_ends();
    return count;
}

static bool is_known(uint64_t base, size_t words, enum page_kind kind)
{
    return LIKELY(mpgc.kind[mpgc_page_of(base)] == kind) || mpgc_learn(base, words, kind);
}

// These are the run's: what it had, if anything, is garbage. A handler that comes between finds it empty, also where it was never filled,
// and stops at its own call.
static void publish(struct run *run, const uint64_t *bases, uint64_t count)
{
    mpgc_call_begins();
    mpgc_self->takes_back = 1;
    run->next = run->end;
    atomic_signal_fence(memory_order_seq_cst);
    for (uint64_t k = 0; k < count; k++) run->bases[(run->end + k) % RUN_OBJECTS] = bases[k];
    atomic_signal_fence(memory_order_seq_cst);
    run->end += count;
    atomic_signal_fence(memory_order_seq_cst);
    mpgc_self->takes_back = 0;
    mpgc_call_ends();
}

// The run, which has none left, has objects of so many granules; or there is no room for one. The first of them that isn't known lies
// past what the heap may use, and it goes with those behind it. The lock is held, so that nobody else collects before they are the run's;
// but what mpgc_learn calls, GC_on_heap_resize of the program, may: so it isn't told before.
bool mpgc_fill_run(struct run *run, size_t granules, enum page_kind kind)
{
    uint64_t bases[RUN_OBJECTS];
    uint8_t size = mpgc_size_for(granules);
    size_t words = size * (GRANULE / WORD);
    uint64_t known = 0, ended = mpgc.ended, count = ask(bases, words, kind);
    while (known < count && is_known(bases[known], words, kind)) mpgc.granules[mpgc_page_of(bases[known++])] = size;
    if (ended != mpgc.ended) return run->next < run->end;
    for (uint64_t k = known; k < count; k++) mpgc_free_in(bases[k]);
    mpgc_note_young(bases, known);
    publish(run, bases, known);
    run->words = granules * (GRANULE / WORD);
    mpgc_figures.since += known * run->words;
    mpgc_figures.taken += known * words;
    return known > 0;
}

// Words that count as asked for, and weren't yet. Of a thread that runs the end is read last: it is no less than what was next before.
UNSEEN size_t mpgc_words_in_runs(void)
{
    size_t words = 0;
    mpgc_lock();
    for (const struct thread *one = mpgc.threads; one; one = one->next) {
        const struct run *all = one->runs[0];
        for (size_t k = 0; k < 2 * RUN_SIZES; k++) {
            uint64_t next = *(const volatile uint64_t *)&all[k].next;
            words += (*(const volatile uint64_t *)&all[k].end - next) * all[k].words;
        }
    }
    mpgc_unlock();
    return words;
}

// What the thread has and didn't give out, the core frees, since nobody frees it else. The lock is held.
void mpgc_empty_runs(struct thread *thread)
{
    struct run *all = thread->runs[0];
    for (size_t k = 0; k < 2 * RUN_SIZES; k++) {
        mpgc_figures.freed += (all[k].end - all[k].next) * sizes[k % RUN_SIZES] * (GRANULE / WORD);
        for (; all[k].next < all[k].end; all[k].next++) mpgc_free_in(all[k].bases[all[k].next % RUN_OBJECTS]);
    }
}

void mpgc_push_runs(const struct thread *thread, void (*push)(uint64_t word))
{
    const struct run *all = thread->runs[0];
    uint64_t more = thread->takes_back ? 1 : 0;  // it is behind the last
    for (size_t k = 0; k < 2 * RUN_SIZES; k++)
        for (uint64_t number = all[k].next; number < all[k].end + more; number++) push(all[k].bases[number % RUN_OBJECTS]);
}
