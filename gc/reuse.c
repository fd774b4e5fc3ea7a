// What a thread frees it is given again, without the core, to which it stays an object, and mostly without the lock. Trusted, not proved.
//
// What it owes the core, of mpheap.h:
//
//   "any 64-bit word may be put at any 8-aligned         only an object is taken back that a run was given since the last collection, or that
//   address of an object that is kept at that moment"    the core has said since that it keeps (mpheap_kept_at, clause IsKeptAt), and that the
//                                                        core hasn't freed since, which is written down here: so it is one, and it stays one,
//                                                        first as the program's and then as the run's (mpgc_push_runs)
//   each object is given out to one alone                it is put behind those of the thread's own run, once: whoever frees it again, with
//                                                        nothing put into it meanwhile, is stopped with a sentence
//   "the address was told by mpheap_written first"       it is filled with 0, which is no address
//
// Objects of which more is known go by the core, as do those that are 0 all over, which may lie in a run. Nothing is written down before the
// program frees a small object.
// Counted under the rest.
#include "layer.h"
#include <string.h>

static bool are_freed;  // small objects

static uint32_t now(void) { return (uint32_t)mpgc.ended + 1; }

static bool is_young(uintptr_t base)
{
    size_t granule = (base - FIRST) / GRANULE;
    return base % GRANULE == 0 && mpgc.filled[mpgc_page_of(base)] == now() && mpgc.young[granule / 64] >> granule % 64 & 1;
}

// These are given to a run. The lock is held.
UNSEEN void mpgc_note_young(const uint64_t *bases, uint64_t count)
{
    if (!are_freed) return;
    for (uint64_t k = 0; k < count; k++) {
        size_t page = mpgc_page_of(bases[k]), granule = (bases[k] - FIRST) / GRANULE;
        if (mpgc.filled[page] != now()) {
            memset((void *)&mpgc.young[page * (PAGE / GRANULE / 64)], 0, PAGE / GRANULE / 8);
            atomic_signal_fence(memory_order_seq_cst);
            mpgc.filled[page] = now();
        }
        mpgc.young[granule / 64] |= (uint64_t)1 << granule % 64;
    }
}

// The core frees it, if it is an object. The lock is held.
UNSEEN void mpgc_note_freed(uintptr_t base)
{
    size_t granule = (base - FIRST) / GRANULE;
    if (mpgc_is_inside(base) && is_young(base)) mpgc.young[granule / 64] &= ~((uint64_t)1 << granule % 64);
}

// More is known of the object than its size and kind, and whether it is uncollectable; or was.
void mpgc_know_more(uintptr_t base)
{
    if (mpgc_is_inside(base)) mpgc.has_more[mpgc_page_of(base)] = true;
}

// Whether a run may have one more of these. It holds no more than four pages of memory back.
static bool has_room(const struct run *run, size_t granules)
{
    enum { MOST_GRANULES = 4 * PAGE / GRANULE };
    uint64_t count = run->end - *(volatile uint64_t *)&run->next;
    return count < RUN_OBJECTS && (count + 1) * granules <= MOST_GRANULES;
}

UNSEEN static bool is_empty(const uint64_t *words, size_t granules)
{
    const uint64_t *end = words + granules * (GRANULE / WORD);
    while (words < end && *words == 0) words++;
    return words == end;
}

// A handler that comes between is given objects, if the run has some, but changes it no further. A thread that is stopped between has a root
// more. An uncollectable one is that no more before the run has it to give out, and not before it is that root.
UNSEEN static bool put_back(struct thread *self, struct run *run, uintptr_t base, size_t granules)
{
    self->takes_back = 1;
    atomic_signal_fence(memory_order_seq_cst);
    bool has_put = has_room(run, granules);
    if (has_put) {
        memset((void *)base, 0, granules * GRANULE);
        run->bases[run->end % RUN_OBJECTS] = base;
        atomic_signal_fence(memory_order_seq_cst);
        if (mpgc.are_some_reserved && mpgc_is_uncollectable(base)) mpgc_set_uncollectable(base, false);
        atomic_signal_fence(memory_order_seq_cst);
        run->end++;
        self->taken_back += granules * (GRANULE / WORD);
    }
    atomic_signal_fence(memory_order_seq_cst);
    self->takes_back = 0;
    return has_put;
}

// Of an older one the core is asked whether it is an object's base, and that is written down.
static bool is_kept(uintptr_t base)
{
    uintptr_t found;
    size_t words;
    mpgc_lock();
    bool is_one = mpgc_find(base, &found, &words) && found == base;
    are_freed = true;
    if (is_one) mpgc_note_young(&base, 1);
    mpgc_unlock();
    return is_one;
}

// Answers whether it was taken back. Whose run it lies in already is empty, and goes on to be looked for (mpgc_is_in_run).
UNSEEN bool mpgc_take_back(uintptr_t base)
{
    struct thread *self = mpgc_self;
    if (!self || self->takes_back || !mpgc_is_inside(base)) return false;
    size_t page = mpgc_page_of(base), granules = mpgc.granules[page];
    if (granules == 0 || mpgc.has_more[page]) return false;
    struct run *run = mpgc_run_of(self, granules, mpgc.kind[page]);
    if (run->end == 0 || !has_room(run, granules) || !(is_young(base) || is_kept(base))) return false;
    return !is_empty((const uint64_t *)base, granules) && put_back(self, run, base, granules);
}

UNSEEN static bool has(const struct run *run, uintptr_t base)
{
    uint64_t number = run->next;
    while (number < run->end && run->bases[number % RUN_OBJECTS] != base) number++;
    return number < run->end;
}

// Whether a run has the object, so that the program hasn't. The lock is held. What a thread had that ended without a word may be another's.
UNSEEN bool mpgc_is_in_run(uintptr_t base)
{
    size_t granules = mpgc_is_inside(base) ? mpgc.granules[mpgc_page_of(base)] : 0;
    if (granules == 0 || base % GRANULE != 0 || base % PAGE + granules * GRANULE > PAGE || !is_empty((const uint64_t *)base, granules)) return false;
    enum page_kind kind = mpgc.kind[mpgc_page_of(base)];
    struct thread *one = mpgc.threads;
    while (one && (one->state == ENDED || !has(mpgc_run_of(one, granules, kind), base))) one = one->next;
    return one;
}

// Words that the program freed since it was last asked, and that count as asked for again.
UNSEEN size_t mpgc_words_taken_back(bool begins_anew)
{
    size_t words = 0;
    mpgc_lock();
    for (struct thread *one = mpgc.threads; one; one = one->next) {
        words += one->taken_back;
        if (begins_anew) one->taken_back = 0;
    }
    mpgc_unlock();
    return words;
}
