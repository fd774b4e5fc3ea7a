/* A cycle that goes on from the marks of the last one: when it is refused, what it takes and what stays until the next full cycle, and
 * what is owed to it by a program that writes by pointers while no cycle marks. */
#include "check.h"
#include "mpheap.h"

enum { TOP = 0, NEW = 1, SCRATCH = 2, KEPT_BY = 0 };

static mpheap heap = MPHEAP_CLOSED;
static uint8_t me;

static uint64_t *at(uint64_t base) {
    return (uint64_t *)(uintptr_t)base;
}

/* A new object of four words; no register keeps it. */
static uint64_t fresh(void) {
    uint64_t base = 0;
    IS(mpheap_alloc_base(&heap, me, NEW, 4, &base), MPHEAP_OK);
    IS(mpheap_set(&heap, me, NEW, 0), MPHEAP_OK);
    return base;
}

static bool is_kept(uint64_t base) {
    uint64_t found = 0, words = 0;
    return mpheap_kept_at(&heap, base, &found, &words) == MPHEAP_OK && found == base;
}

/* A heap with one old object, which a global keeps. */
static uint64_t opens_with_one(void) {
    uint64_t top = 0, count = 77;
    IS(mpheap_open_mapped(8, &heap), MPHEAP_OK);
    IS(mpheap_attach(&heap, &me), MPHEAP_OK);
    IS(mpheap_alloc_base(&heap, me, TOP, 4, &top), MPHEAP_OK);
    IS(mpheap_gput(&heap, me, KEPT_BY, TOP), MPHEAP_OK);
    IS(mpheap_set(&heap, me, TOP, 0), MPHEAP_OK);
    IS(mpheap_collect(&heap, &count), MPHEAP_OK);
    IS(count, 0);
    return top;
}

static uint64_t partial_cycle(void) {
    uint64_t count = 77;
    IS(mpheap_begin_partial(&heap), MPHEAP_OK);
    IS(mpheap_is_marking(&heap), 1);
    IS(mpheap_roots(&heap), MPHEAP_OK);
    IS(mpheap_finish(&heap, &count), MPHEAP_OK);
    IS(mpheap_is_marking(&heap), 0);
    return count;
}

/* Before any cycle there are no marks; while one marks another can't begin; both kinds of cycle leave marks. */
static void is_refused(void) {
    uint64_t count = 77;
    IS(mpheap_open(8, &heap), MPHEAP_OK);
    IS(mpheap_begin_partial(&heap), MPHEAP_NEEDS_FULL);
    IS(mpheap_is_marking(&heap), 0);
    IS(mpheap_begin(&heap), MPHEAP_OK);
    IS(mpheap_begin_partial(&heap), MPHEAP_WRONG_PHASE);
    IS(mpheap_finish(&heap, &count), MPHEAP_OK);
    IS(mpheap_begin_partial(&heap), MPHEAP_OK);
    IS(mpheap_begin_partial(&heap), MPHEAP_WRONG_PHASE);
    IS(mpheap_begin(&heap), MPHEAP_WRONG_PHASE);
    IS(mpheap_finish(&heap, &count), MPHEAP_OK);
    IS(mpheap_gc_no(&heap), 2);
    mpheap_close(&heap);
}

/* A granted free needs a full cycle, a refused one nothing; a collect and a begin are both full. */
static void a_free_needs_a_full_cycle(void) {
    uint64_t count = 77;
    opens_with_one();
    IS(mpheap_free(&heap, me, NEW), MPHEAP_NO_OBJECT);
    IS(partial_cycle(), 0);
    IS(mpheap_alloc(&heap, me, SCRATCH, 2), MPHEAP_OK);
    IS(mpheap_free(&heap, me, SCRATCH), MPHEAP_OK);
    IS(mpheap_begin_partial(&heap), MPHEAP_NEEDS_FULL);
    IS(mpheap_collect(&heap, &count), MPHEAP_OK);
    IS(partial_cycle(), 0);
    IS(mpheap_alloc(&heap, me, SCRATCH, 2), MPHEAP_OK);
    IS(mpheap_free(&heap, me, SCRATCH), MPHEAP_OK);
    IS(mpheap_begin(&heap), MPHEAP_OK);
    IS(mpheap_finish(&heap, &count), MPHEAP_OK);
    IS(partial_cycle(), 0);
    mpheap_close(&heap);
}

/* New garbage goes in a partial cycle, old garbage in the next full one. */
static void old_garbage_stays(void) {
    uint64_t top = opens_with_one(), old = fresh(), count = 77;
    mpheap_written(&heap, top);
    at(top)[0] = old;
    IS(partial_cycle(), 0);
    mpheap_written(&heap, top);
    at(top)[0] = 0;
    uint64_t newer = fresh();
    IS(partial_cycle(), 1);
    IS(is_kept(old), 1);
    IS(is_kept(newer), 0);
    IS(mpheap_collect(&heap, &count), MPHEAP_OK);
    IS(count, 1);
    IS(is_kept(old), 0);
    IS(is_kept(top), 1);
    mpheap_close(&heap);
}

/* An old object comes to name a new one while no cycle marks: by a store, by a pointer that was told, and by one that wasn't. */
static void old_names_new(void) {
    uint64_t top = opens_with_one(), word = 77;
    uint64_t stored = fresh(), told = fresh(), untold = fresh();
    IS(mpheap_gget(&heap, me, TOP, KEPT_BY, &word), MPHEAP_OK);
    IS(mpheap_set(&heap, me, SCRATCH, stored), MPHEAP_OK);
    IS(mpheap_store(&heap, me, TOP, 0, SCRATCH), MPHEAP_OK);
    IS(mpheap_set(&heap, me, SCRATCH, 0), MPHEAP_OK);
    IS(mpheap_dirty_pages(&heap), 1);
    mpheap_written(&heap, top + 8);
    at(top)[1] = told;
    IS(partial_cycle(), 1);
    IS(is_kept(stored), 1);
    IS(is_kept(told), 1);
    IS(is_kept(untold), 0);
    IS(mpheap_dirty_pages(&heap), 0);
    untold = fresh();
    at(top)[2] = untold;
    IS(partial_cycle(), 1);
    IS(is_kept(untold), 0);
    at(top)[2] = 0;
    mpheap_close(&heap);
}

int main(void) {
    is_refused();
    a_free_needs_a_full_cycle();
    old_garbage_stays();
    old_names_new();
    return counts("partial");
}
