/* Each call of mpheap.h, and each of its refusals with what stayed: registers, the words that results would go into, objects,
 * phase and count. */
#include "check.h"
#include "mpheap.h"

enum { UNTOUCHED = 77, TWO = 1, NUMBER = 2, PLACE = 3, LATER = 4, OTHER = 5, MANY = 10 };

static mpheap heap = MPHEAP_CLOSED;
static const mpheap_asked asked = MPHEAP_ASKED;
static uint8_t me;
static uint64_t many[MANY];

static uint64_t in(uint8_t from) {
    uint64_t word = UNTOUCHED;
    IS(mpheap_get(&heap, me, from, &word), MPHEAP_OK);
    return word;
}

/* A call that answers a word is refused, and the word stays. */
#define STAYS(status, ...) \
    do { \
        uint64_t word = UNTOUCHED; \
        IS(__VA_ARGS__, status); \
        IS(word, UNTOUCHED); \
    } while (0)

static void opens_within_its_pages(void) {
    IS(mpheap_open(0, &heap), MPHEAP_BAD_PAGES);
    IS(heap.core == NULL, 1);
    IS(mpheap_open(MPHEAP_MAX_PAGES + 1, &heap), MPHEAP_BAD_PAGES);
    IS(mpheap_open(UINT32_MAX, &heap), MPHEAP_BAD_PAGES);
    IS(heap.core == NULL, 1);
    IS(mpheap_open(MPHEAP_MAX_PAGES, &heap), MPHEAP_OK);
    mpheap_close(&heap);
    IS(heap.core == NULL, 1);
    IS(mpheap_open(4, &heap), MPHEAP_OK);
}

static void no_mutator_is_there(void) {
    STAYS(MPHEAP_NO_SLOT, mpheap_get(&heap, 0, 0, &word));
    STAYS(MPHEAP_NO_SLOT, mpheap_pop(&heap, 0, 0, &word));
    STAYS(MPHEAP_NO_SLOT, mpheap_gget(&heap, 0, 0, 0, &word));
    STAYS(MPHEAP_NO_SLOT, mpheap_load(&heap, 0, 0, 0, 0, &word));
    STAYS(MPHEAP_NO_SLOT, mpheap_base(&heap, 0, 0, 0, &word));
    STAYS(MPHEAP_NO_SLOT, mpheap_size(&heap, 0, 0, &word));
    STAYS(MPHEAP_NO_SLOT, mpheap_alloc_base(&heap, 0, 0, 1, &word));
    STAYS(MPHEAP_NO_SLOT, mpheap_alloc_pointer_free_base(&heap, 0, 0, 1, &word));
    uint64_t count = UNTOUCHED;
    IS(mpheap_alloc_many(&heap, 0, 0, 1, many, MANY, &count), MPHEAP_NO_SLOT);
    IS(count, 0);
    IS(mpheap_set(&heap, 0, 0, 1), MPHEAP_NO_SLOT);
    IS(mpheap_copy(&heap, 0, 0, 1), MPHEAP_NO_SLOT);
    IS(mpheap_add(&heap, 0, 0, 1, 1), MPHEAP_NO_SLOT);
    IS(mpheap_sub(&heap, 0, 0, 1, 1), MPHEAP_NO_SLOT);
    IS(mpheap_push(&heap, 0, 0), MPHEAP_NO_SLOT);
    IS(mpheap_gput(&heap, 0, 0, 0), MPHEAP_NO_SLOT);
    IS(mpheap_store(&heap, 0, 0, 0, 0), MPHEAP_NO_SLOT);
    IS(mpheap_link(&heap, 0, 0, 0, 0), MPHEAP_NO_SLOT);
    STAYS(MPHEAP_NO_SLOT, mpheap_unlink(&heap, 0, 0, 0, &word));
    IS(mpheap_alloc(&heap, 0, 0, 1), MPHEAP_NO_SLOT);
    IS(mpheap_alloc_pointer_free(&heap, 0, 0, 1), MPHEAP_NO_SLOT);
    IS(mpheap_free(&heap, 0, 0), MPHEAP_NO_SLOT);
    IS(mpheap_detach(&heap, 0), MPHEAP_NO_SLOT);
    IS(mpheap_free_pages(&heap), 4);
}

static void seventeen_come(void) {
    uint8_t slot = UNTOUCHED;
    for (int k = 0; k < MPHEAP_SLOTS; k++) {
        IS(mpheap_attach(&heap, &slot), MPHEAP_OK);
        IS(slot, k);
    }
    slot = UNTOUCHED;
    IS(mpheap_attach(&heap, &slot), MPHEAP_NO_SLOT);
    IS(slot, UNTOUCHED);
    for (uint8_t k = 1; k < MPHEAP_SLOTS; k++) IS(mpheap_detach(&heap, k), MPHEAP_OK);
    me = 0;
}

enum { S = MPHEAP_SLOTS, R = MPHEAP_REGISTERS, G = MPHEAP_GLOBALS };  /* one too large */

static void numbers_of_calls_that_answer_a_word(void) {
    STAYS(MPHEAP_BAD_NUMBER, mpheap_get(&heap, S, 0, &word));
    STAYS(MPHEAP_BAD_NUMBER, mpheap_get(&heap, me, R, &word));
    STAYS(MPHEAP_BAD_NUMBER, mpheap_get(&heap, UINT8_MAX, UINT8_MAX, &word));
    STAYS(MPHEAP_BAD_NUMBER, mpheap_pop(&heap, S, 0, &word));
    STAYS(MPHEAP_BAD_NUMBER, mpheap_pop(&heap, me, R, &word));
    STAYS(MPHEAP_BAD_NUMBER, mpheap_gget(&heap, S, 0, 0, &word));
    STAYS(MPHEAP_BAD_NUMBER, mpheap_gget(&heap, me, R, 0, &word));
    STAYS(MPHEAP_BAD_NUMBER, mpheap_gget(&heap, me, 0, G, &word));
    STAYS(MPHEAP_BAD_NUMBER, mpheap_load(&heap, S, 0, 0, 0, &word));
    STAYS(MPHEAP_BAD_NUMBER, mpheap_load(&heap, me, R, 0, 0, &word));
    STAYS(MPHEAP_BAD_NUMBER, mpheap_load(&heap, me, 0, R, 0, &word));
    STAYS(MPHEAP_BAD_NUMBER, mpheap_base(&heap, S, 0, 0, &word));
    STAYS(MPHEAP_BAD_NUMBER, mpheap_base(&heap, me, R, 0, &word));
    STAYS(MPHEAP_BAD_NUMBER, mpheap_base(&heap, me, 0, R, &word));
    STAYS(MPHEAP_BAD_NUMBER, mpheap_size(&heap, S, 0, &word));
    STAYS(MPHEAP_BAD_NUMBER, mpheap_size(&heap, me, R, &word));
    STAYS(MPHEAP_BAD_NUMBER, mpheap_alloc_base(&heap, S, 0, 1, &word));
    STAYS(MPHEAP_BAD_NUMBER, mpheap_alloc_base(&heap, me, R, 1, &word));
    STAYS(MPHEAP_BAD_NUMBER, mpheap_alloc_pointer_free_base(&heap, S, 0, 1, &word));
    STAYS(MPHEAP_BAD_NUMBER, mpheap_alloc_pointer_free_base(&heap, me, R, 1, &word));
    STAYS(MPHEAP_BAD_NUMBER, mpheap_alloc_many(&heap, S, 0, 1, many, MANY, &word));
    STAYS(MPHEAP_BAD_NUMBER, mpheap_alloc_many(&heap, me, R, 1, many, MANY, &word));
    STAYS(MPHEAP_BAD_NUMBER, mpheap_alloc_pointer_free_many(&heap, S, 0, 1, many, MANY, &word));
    STAYS(MPHEAP_BAD_NUMBER, mpheap_alloc_pointer_free_many(&heap, me, R, 1, many, MANY, &word));
    STAYS(MPHEAP_BAD_NUMBER, mpheap_unlink(&heap, S, 0, 0, &word));
    STAYS(MPHEAP_BAD_NUMBER, mpheap_unlink(&heap, me, R, 0, &word));
}

static void numbers_of_calls_on_registers(void) {
    IS(mpheap_detach(&heap, S), MPHEAP_BAD_NUMBER);
    IS(mpheap_set(&heap, S, NUMBER, 5), MPHEAP_BAD_NUMBER);
    IS(mpheap_set(&heap, me, R, 5), MPHEAP_BAD_NUMBER);
    IS(mpheap_copy(&heap, S, NUMBER, 0), MPHEAP_BAD_NUMBER);
    IS(mpheap_copy(&heap, me, R, 0), MPHEAP_BAD_NUMBER);
    IS(mpheap_copy(&heap, me, NUMBER, R), MPHEAP_BAD_NUMBER);
    IS(mpheap_add(&heap, S, NUMBER, 0, 1), MPHEAP_BAD_NUMBER);
    IS(mpheap_add(&heap, me, R, 0, 1), MPHEAP_BAD_NUMBER);
    IS(mpheap_add(&heap, me, NUMBER, R, 1), MPHEAP_BAD_NUMBER);
    IS(mpheap_sub(&heap, S, NUMBER, 0, 0), MPHEAP_BAD_NUMBER);
    IS(mpheap_sub(&heap, me, R, 0, 0), MPHEAP_BAD_NUMBER);
    IS(mpheap_sub(&heap, me, NUMBER, R, 0), MPHEAP_BAD_NUMBER);
    IS(mpheap_sub(&heap, me, NUMBER, 0, R), MPHEAP_BAD_NUMBER);
    IS(mpheap_push(&heap, S, 0), MPHEAP_BAD_NUMBER);
    IS(mpheap_push(&heap, me, R), MPHEAP_BAD_NUMBER);
    IS(mpheap_gput(&heap, S, 0, NUMBER), MPHEAP_BAD_NUMBER);
    IS(mpheap_gput(&heap, me, G, NUMBER), MPHEAP_BAD_NUMBER);
    IS(mpheap_gput(&heap, me, 0, R), MPHEAP_BAD_NUMBER);
}

static void numbers_of_calls_on_objects(void) {
    IS(mpheap_store(&heap, S, 0, 0, 0), MPHEAP_BAD_NUMBER);
    IS(mpheap_store(&heap, me, R, 0, 0), MPHEAP_BAD_NUMBER);
    IS(mpheap_store(&heap, me, 0, 0, R), MPHEAP_BAD_NUMBER);
    IS(mpheap_link(&heap, S, 0, 0, 0), MPHEAP_BAD_NUMBER);
    IS(mpheap_link(&heap, me, R, 0, 0), MPHEAP_BAD_NUMBER);
    IS(mpheap_link(&heap, me, 0, 0, R), MPHEAP_BAD_NUMBER);
    IS(mpheap_alloc(&heap, S, NUMBER, 1), MPHEAP_BAD_NUMBER);
    IS(mpheap_alloc(&heap, me, R, 1), MPHEAP_BAD_NUMBER);
    IS(mpheap_alloc_pointer_free(&heap, S, NUMBER, 1), MPHEAP_BAD_NUMBER);
    IS(mpheap_alloc_pointer_free(&heap, me, R, 1), MPHEAP_BAD_NUMBER);
    IS(mpheap_free(&heap, S, 0), MPHEAP_BAD_NUMBER);
    IS(mpheap_free(&heap, me, R), MPHEAP_BAD_NUMBER);
}

/* Each place of each call. */
static void numbers_are_out_of_range(void) {
    IS(mpheap_set(&heap, me, NUMBER, 42), MPHEAP_OK);
    numbers_of_calls_that_answer_a_word();
    numbers_of_calls_on_registers();
    numbers_of_calls_on_objects();
    IS(in(NUMBER), 42);
    IS(mpheap_free_pages(&heap), 4);
}

static void registers_stack_and_globals(void) {
    uint64_t word = UNTOUCHED;
    IS(mpheap_copy(&heap, me, OTHER, NUMBER), MPHEAP_OK);
    IS(in(OTHER), 42);
    IS(mpheap_add(&heap, me, OTHER, NUMBER, UINT64_MAX), MPHEAP_OK);
    IS(in(OTHER), 41);
    IS(mpheap_sub(&heap, me, OTHER, OTHER, NUMBER), MPHEAP_OK);
    IS(in(OTHER), UINT64_MAX);
    IS(mpheap_gput(&heap, me, MPHEAP_GLOBALS - 1, NUMBER), MPHEAP_OK);
    IS(mpheap_gget(&heap, me, OTHER, MPHEAP_GLOBALS - 1, &word), MPHEAP_OK);
    IS(word, 42);
    IS(in(OTHER), 42);
    STAYS(MPHEAP_STACK_EMPTY, mpheap_pop(&heap, me, OTHER, &word));
    IS(in(OTHER), 42);
    for (uint64_t k = 0; k < MPHEAP_STACK_WORDS; k++) {
        IS(mpheap_set(&heap, me, OTHER, k), MPHEAP_OK);
        IS(mpheap_push(&heap, me, OTHER), MPHEAP_OK);
    }
    IS(mpheap_push(&heap, me, NUMBER), MPHEAP_STACK_FULL);
    for (uint64_t k = MPHEAP_STACK_WORDS; k-- > 0;) {
        IS(mpheap_pop(&heap, me, OTHER, &word), MPHEAP_OK);
        IS(word, k);
        IS(in(OTHER), k);
    }
}

static void objects_come_and_go(void) {
    uint64_t word = UNTOUCHED, base, words = UNTOUCHED;
    IS(mpheap_alloc(&heap, me, TWO, 2), MPHEAP_OK);
    base = in(TWO);
    IS(base - MPHEAP_FIRST_ADDRESS < 4 * MPHEAP_PAGE_BYTES, 1);
    IS(mpheap_store(&heap, me, TWO, 1, NUMBER), MPHEAP_OK);
    IS(mpheap_load(&heap, me, OTHER, TWO, 1, &word), MPHEAP_OK);
    IS(word, 42);
    IS(in(OTHER), 42);
    STAYS(MPHEAP_NO_OBJECT, mpheap_load(&heap, me, OTHER, TWO, 2, &word));
    IS(mpheap_store(&heap, me, TWO, 2, NUMBER), MPHEAP_NO_OBJECT);
    IS(mpheap_add(&heap, me, PLACE, TWO, 4), MPHEAP_OK);
    STAYS(MPHEAP_MISALIGNED, mpheap_load(&heap, me, OTHER, PLACE, 0, &word));
    IS(mpheap_store(&heap, me, PLACE, 0, TWO), MPHEAP_MISALIGNED);
    IS(mpheap_free(&heap, me, PLACE), MPHEAP_NOT_BASE);
    IS(in(OTHER), 42);
    IS(mpheap_base(&heap, me, OTHER, PLACE, &word), MPHEAP_OK);
    IS(word, base);
    IS(in(OTHER), base);
    STAYS(MPHEAP_NO_OBJECT, mpheap_base(&heap, me, OTHER, NUMBER, &word));
    STAYS(MPHEAP_NO_OBJECT, mpheap_size(&heap, me, NUMBER, &word));
    IS(mpheap_free(&heap, me, NUMBER), MPHEAP_NO_OBJECT);
    IS(in(OTHER), base);
    IS(mpheap_size(&heap, me, PLACE, &word), MPHEAP_OK);
    IS(word, 2);
    IS(mpheap_kept_at(&heap, base + 15, &word, &words), MPHEAP_OK);
    IS(word, base);
    IS(words, 2);
    IS(mpheap_kept_at(&heap, base + 16, &word, &words), MPHEAP_NO_OBJECT);
    IS(word, base);
    IS(words, 2);
    IS(mpheap_free(&heap, me, TWO), MPHEAP_OK);
    IS(mpheap_free(&heap, me, TWO), MPHEAP_NO_OBJECT);
    IS(mpheap_free_pages(&heap), 4);
}

static void sizes_and_room(void) {
    static const uint64_t none[] = { 0, MPHEAP_MAX_REQUEST_WORDS + 1, UINT64_MAX };
    uint64_t word = UNTOUCHED;
    IS(mpheap_set(&heap, me, OTHER, 9), MPHEAP_OK);
    for (int k = 0; k < 3; k++) {
        IS(mpheap_alloc(&heap, me, OTHER, none[k]), MPHEAP_BAD_SIZE);
        IS(mpheap_alloc_pointer_free(&heap, me, OTHER, none[k]), MPHEAP_BAD_SIZE);
        STAYS(MPHEAP_BAD_SIZE, mpheap_alloc_base(&heap, me, OTHER, none[k], &word));
        STAYS(MPHEAP_BAD_SIZE, mpheap_alloc_pointer_free_base(&heap, me, OTHER, none[k], &word));
    }
    IS(mpheap_alloc(&heap, me, OTHER, MPHEAP_MAX_REQUEST_WORDS), MPHEAP_FULL);
    IS(mpheap_alloc_pointer_free(&heap, me, OTHER, MPHEAP_MAX_REQUEST_WORDS), MPHEAP_FULL);
    STAYS(MPHEAP_FULL, mpheap_alloc_base(&heap, me, OTHER, MPHEAP_MAX_REQUEST_WORDS, &word));
    STAYS(MPHEAP_FULL, mpheap_alloc_pointer_free_base(&heap, me, OTHER, MPHEAP_MAX_REQUEST_WORDS, &word));
    IS(in(OTHER), 9);
    IS(mpheap_alloc_base(&heap, me, OTHER, 3 * MPHEAP_PAGE_WORDS, &word), MPHEAP_OK);
    IS(in(OTHER), word);
    IS(mpheap_size(&heap, me, OTHER, &word), MPHEAP_OK);
    IS(word, 3 * MPHEAP_PAGE_WORDS);
    IS(mpheap_free_pages(&heap), 1);
    IS(mpheap_alloc_pointer_free_base(&heap, me, LATER, 100, &word), MPHEAP_OK);
    IS(in(LATER), word);
    IS(mpheap_free(&heap, me, LATER), MPHEAP_OK);
    IS(mpheap_free(&heap, me, OTHER), MPHEAP_OK);
}

/* Eight objects of 200 words fill the four pages, two a page: of ten the ninth is refused, and eight bases are written. */
static void many_at_once(void) {
    uint64_t word = UNTOUCHED;
    for (int k = 0; k < MANY; k++) many[k] = UNTOUCHED;
    IS(mpheap_set(&heap, me, OTHER, 9), MPHEAP_OK);
    IS(mpheap_alloc_many(&heap, me, OTHER, 0, many, MANY, &word), MPHEAP_BAD_SIZE);
    IS(word, 0);
    IS(in(OTHER), 9);
    IS(mpheap_alloc_many(&heap, me, OTHER, 200, many, 0, &word), MPHEAP_OK);
    IS(word, 0);
    IS(in(OTHER), 9);
    IS(mpheap_alloc_many(&heap, me, OTHER, 200, many, MANY, &word), MPHEAP_FULL);
    IS(word, 8);
    for (int k = 0; k < 8; k++) IS(many[k], MPHEAP_FIRST_ADDRESS + 2048 * k);
    IS(many[8], UNTOUCHED);
    IS(in(OTHER), many[7]);
    IS(mpheap_free_pages(&heap), 0);
    for (int k = 7; k >= 0; k--) {
        IS(mpheap_set(&heap, me, OTHER, many[k]), MPHEAP_OK);
        IS(mpheap_size(&heap, me, OTHER, &word), MPHEAP_OK);
        IS(word, 256);
        IS(mpheap_free(&heap, me, OTHER), MPHEAP_OK);
    }
    IS(mpheap_alloc_pointer_free_many(&heap, me, OTHER, 2, many, 3, &word), MPHEAP_OK);
    IS(word, 3);
    for (int k = 2; k >= 0; k--) {
        IS(many[k], MPHEAP_FIRST_ADDRESS + 16 * k);
        IS(mpheap_set(&heap, me, OTHER, many[k]), MPHEAP_OK);
        IS(mpheap_free(&heap, me, OTHER), MPHEAP_OK);
    }
    IS(many[3], MPHEAP_FIRST_ADDRESS + 3 * 2048);
    IS(mpheap_free_pages(&heap), 4);
}

static void the_wrong_phase(void) {
    IS(mpheap_is_marking(&heap), 0);
    IS(mpheap_roots(&heap), MPHEAP_WRONG_PHASE);
    STAYS(MPHEAP_WRONG_PHASE, mpheap_mark(&heap, 4, &word));
    STAYS(MPHEAP_WRONG_PHASE, mpheap_retrace(&heap, &word));
    STAYS(MPHEAP_WRONG_PHASE, mpheap_retrace_beside(&heap, &asked, &word));
    STAYS(MPHEAP_WRONG_PHASE, mpheap_retrace_page_beside(&heap, 0, &asked, &word));
    STAYS(MPHEAP_WRONG_PHASE, mpheap_finish(&heap, &word));
    IS(mpheap_gc_no(&heap), 0);
    IS(mpheap_begin_partial(&heap), MPHEAP_NEEDS_FULL);
    IS(mpheap_begin(&heap), MPHEAP_OK);
    IS(mpheap_begin(&heap), MPHEAP_WRONG_PHASE);
    IS(mpheap_begin_partial(&heap), MPHEAP_WRONG_PHASE);
    IS(mpheap_is_marking(&heap), 1);
    IS(mpheap_gc_no(&heap), 0);
}

/* Of two dirty pages of four the upper one is read again, and then the lower one; a clean one isn't, and none that isn't there. */
static void a_page_is_read_by_its_number(void) {
    uint64_t word = UNTOUCHED;
    mpheap_written(&heap, MPHEAP_FIRST_ADDRESS);
    mpheap_written(&heap, MPHEAP_FIRST_ADDRESS + 2 * MPHEAP_PAGE_BYTES);
    const uint32_t numbers[] = { 1, 4, UINT32_MAX, 2, 2, 0 };
    const uint64_t read[] = { 0, 0, 0, 1, 0, 1 };
    const uint32_t dirty[] = { 2, 2, 2, 1, 1, 0 };
    for (int k = 0; k < 6; k++) {
        IS(mpheap_retrace_page_beside(&heap, numbers[k], &asked, &word), MPHEAP_OK);
        IS(word, read[k]);
        IS(mpheap_dirty_pages(&heap), dirty[k]);
    }
}

/* In a cycle that is marking: two objects, one behind the other; what is written makes its page dirty; and one that nothing
 * leads to goes. */
static void a_cycle_marks_and_ends(void) {
    uint64_t word = UNTOUCHED;
    IS(mpheap_collect(&heap, &word), MPHEAP_OK);
    IS(word, 0);
    IS(mpheap_is_marking(&heap), 0);
    IS(mpheap_alloc(&heap, me, TWO, 2), MPHEAP_OK);
    IS(mpheap_alloc_pointer_free(&heap, me, LATER, 100), MPHEAP_OK);
    IS(mpheap_alloc(&heap, me, OTHER, 2), MPHEAP_OK);
    IS(mpheap_set(&heap, me, OTHER, 0), MPHEAP_OK);
    IS(mpheap_set(&heap, me, PLACE, 0), MPHEAP_OK);
    IS(mpheap_begin(&heap), MPHEAP_OK);
    IS(mpheap_roots(&heap), MPHEAP_OK);
    IS(mpheap_mark(&heap, 1, &word), MPHEAP_OK);
    IS(word, 1);
    IS(mpheap_mark(&heap, UINT64_MAX, &word), MPHEAP_OK);
    IS(word, 1);
    IS(mpheap_dirty_pages(&heap), 0);
    IS(mpheap_get(&heap, me, TWO, &word), MPHEAP_OK);
    IS(mpheap_is_marked(&heap, word), 1);
    IS(mpheap_is_marked(&heap, word + 8), 0); /* no object begins there */
    IS(mpheap_is_marked(&heap, 0), 0);
    IS(mpheap_store(&heap, me, TWO, 0, LATER), MPHEAP_OK);
    IS(mpheap_dirty_pages(&heap), 1);
    IS(mpheap_retrace(&heap, &word), MPHEAP_OK);
    IS(word, 1);
    IS(mpheap_retrace(&heap, &word), MPHEAP_OK);
    IS(word, 0);
    a_page_is_read_by_its_number();
    IS(mpheap_finish(&heap, &word), MPHEAP_OK);
    IS(word, 1);
    IS(mpheap_gc_no(&heap), 2);
    IS(mpheap_pending_pages(&heap), 1);
    IS(mpheap_sweep(&heap, &word), MPHEAP_OK);
    IS(word, 1);
    IS(mpheap_sweep(&heap, &word), MPHEAP_OK);
    IS(word, 0);
    IS(mpheap_pending_pages(&heap), 0);
}

/* A partial cycle takes of what was allocated since the last collection what nothing leads to, and needs a full one after a
 * free. */
static void a_partial_cycle_keeps_marks(void) {
    uint64_t word = UNTOUCHED;
    IS(mpheap_alloc(&heap, me, LATER, 2), MPHEAP_OK);
    IS(mpheap_alloc(&heap, me, OTHER, 2), MPHEAP_OK);
    IS(mpheap_store(&heap, me, TWO, 1, OTHER), MPHEAP_OK);
    IS(mpheap_dirty_pages(&heap), 1);
    IS(mpheap_set(&heap, me, LATER, 0), MPHEAP_OK);
    IS(mpheap_set(&heap, me, OTHER, 0), MPHEAP_OK);
    IS(mpheap_begin_partial(&heap), MPHEAP_OK);
    IS(mpheap_dirty_pages(&heap), 1);
    IS(mpheap_finish(&heap, &word), MPHEAP_OK);
    IS(word, 1);
    IS(mpheap_gc_no(&heap), 3);
    IS(mpheap_dirty_pages(&heap), 0);
    IS(mpheap_load(&heap, me, OTHER, TWO, 1, &word), MPHEAP_OK);
    IS(mpheap_free(&heap, me, OTHER), MPHEAP_OK);
    IS(mpheap_set(&heap, me, OTHER, 0), MPHEAP_OK);
    IS(mpheap_begin_partial(&heap), MPHEAP_NEEDS_FULL);
    IS(mpheap_is_marking(&heap), 0);
}

/* A full collection leaves what a global leads to, also once its mutator is gone. */
static void a_collection_takes_the_rest(void) {
    uint64_t word = UNTOUCHED;
    IS(mpheap_gput(&heap, me, 0, TWO), MPHEAP_OK);
    IS(mpheap_detach(&heap, me), MPHEAP_OK);
    IS(mpheap_collect(&heap, &word), MPHEAP_OK);
    IS(word, 0);
    IS(mpheap_attach(&heap, &me), MPHEAP_OK);
    IS(mpheap_gput(&heap, me, 0, NUMBER), MPHEAP_OK);
    IS(mpheap_collect(&heap, &word), MPHEAP_OK);
    IS(word, 2);
    IS(mpheap_gc_no(&heap), 5);
    IS(mpheap_free_pages(&heap), 4);
}

int main(void) {
    opens_within_its_pages();
    no_mutator_is_there();
    seventeen_come();
    numbers_are_out_of_range();
    registers_stack_and_globals();
    objects_come_and_go();
    sizes_and_room();
    many_at_once();
    the_wrong_phase();
    a_cycle_marks_and_ends();
    a_partial_cycle_keeps_marks();
    a_collection_takes_the_rest();
    mpheap_close(&heap);
    IS(heap.core == NULL, 1);
    return counts("exports");
}
