/* Links, each rule of mpheap.h once: when a word becomes 0 and when it stays, when a link is gone, how many there can be, and
 * each refusal with what stayed. Each test has a heap of its own. */
#include "check.h"
#include "mpheap.h"

enum { UNTOUCHED = 77, PAGES = 4, NUMBER = 8 };

/* Registers: a pointer-free object with links, objects that they name, and one for a word that is read. */
enum { HOLDER = 1, NAMED = 2, OTHER = 3, SEEN = 4 };

static mpheap heap = MPHEAP_CLOSED;
static uint8_t me;

static void opens(void) {
    IS(mpheap_open(PAGES, &heap), MPHEAP_OK);
    IS(mpheap_attach(&heap, &me), MPHEAP_OK);
}

static uint64_t in(uint8_t from) {
    uint64_t word = UNTOUCHED;
    IS(mpheap_get(&heap, me, from, &word), MPHEAP_OK);
    return word;
}

static void becomes(uint8_t into, uint64_t number) { IS(mpheap_set(&heap, me, into, number), MPHEAP_OK); }
static void makes(uint8_t into) { IS(mpheap_alloc(&heap, me, into, 2), MPHEAP_OK); }
static void makes_holder(uint64_t words) { IS(mpheap_alloc_pointer_free(&heap, me, HOLDER, words), MPHEAP_OK); }
static void goes(uint8_t base) { IS(mpheap_free(&heap, me, base), MPHEAP_OK); }
static void puts_word(uint64_t offset, uint8_t from) { IS(mpheap_store(&heap, me, HOLDER, offset, from), MPHEAP_OK); }
static void links(uint64_t offset, uint8_t to) { IS(mpheap_link(&heap, me, HOLDER, offset, to), MPHEAP_OK); }

/* The word of the holder. No root leads to what it points into. */
static uint64_t word(uint64_t offset) {
    uint64_t seen = UNTOUCHED;
    IS(mpheap_load(&heap, me, SEEN, HOLDER, offset, &seen), MPHEAP_OK);
    becomes(SEEN, 0);
    return seen;
}

/* How many links stood at the holder's word, which an unlink takes away. */
static uint64_t stood(uint64_t offset) {
    uint64_t count = UNTOUCHED;
    IS(mpheap_unlink(&heap, me, HOLDER, offset, &count), MPHEAP_OK);
    return count;
}

static uint64_t collects(void) {
    uint64_t gone = UNTOUCHED;
    IS(mpheap_collect(&heap, &gone), MPHEAP_OK);
    return gone;
}

/* A cycle in small steps: what a root leads to when it begins is marked. */
static void marks(void) {
    uint64_t count = 0;
    IS(mpheap_begin(&heap), MPHEAP_OK);
    IS(mpheap_roots(&heap), MPHEAP_OK);
    IS(mpheap_mark(&heap, UINT64_MAX, &count), MPHEAP_OK);
}

static uint64_t finishes(void) {
    uint64_t gone = UNTOUCHED;
    IS(mpheap_finish(&heap, &gone), MPHEAP_OK);
    return gone;
}

/* A free clears the words of links to the object, and no other word. */
static void a_free_clears(void) {
    opens();
    makes_holder(4);
    makes(NAMED);
    makes(OTHER);
    uint64_t base = in(NAMED), other = in(OTHER);
    for (uint64_t k = 0; k < 3; k++) puts_word(k, NAMED);
    puts_word(3, OTHER);
    links(0, NAMED);
    links(2, NAMED);
    links(3, OTHER);
    IS(word(0), base); /* to link changes no word */
    goes(NAMED);
    IS(word(0), 0);
    IS(word(1), base); /* no link stood here */
    IS(word(2), 0);
    IS(word(3), other);
    IS(stood(0), 0);
    IS(stood(3), 1);
    mpheap_close(&heap);
}

/* A link keeps no object: a collection takes what only its word leads to, and clears that word at once. */
static void a_collect_clears(void) {
    opens();
    makes_holder(2);
    makes(NAMED);
    makes(OTHER);
    uint64_t other = in(OTHER);
    puts_word(0, NAMED);
    puts_word(1, OTHER);
    links(0, NAMED);
    links(1, OTHER);
    IS(collects(), 0);
    becomes(NAMED, 0);
    IS(collects(), 1);
    IS(word(0), 0);
    IS(stood(0), 0);
    IS(word(1), other);
    IS(stood(1), 1);
    mpheap_close(&heap);
}

/* A finish does the same, and leaves what was marked: that goes with the next one. Pages wait to be swept between the two. */
static void a_finish_clears(void) {
    opens();
    makes_holder(2);
    makes(NAMED);
    makes(OTHER);
    uint64_t base = in(NAMED);
    puts_word(0, NAMED);
    puts_word(1, OTHER);
    links(0, NAMED);
    links(1, OTHER);
    becomes(OTHER, 0);
    marks();
    becomes(NAMED, 0);
    IS(finishes(), 1);
    IS(mpheap_pending_pages(&heap) > 0, 1);
    IS(word(0), base);
    IS(word(1), 0);
    marks();
    IS(finishes(), 1);
    IS(word(0), 0);
    IS(stood(0) + stood(1), 0);
    mpheap_close(&heap);
}

/* While a cycle marks a link is made and replaced, and a free clears. */
static void while_a_cycle_marks(void) {
    opens();
    makes_holder(2);
    makes(NAMED);
    makes(OTHER);
    marks();
    puts_word(0, NAMED);
    links(0, NAMED);
    links(0, OTHER);
    goes(NAMED);
    IS(word(0) != 0, 1);
    goes(OTHER);
    IS(word(0), 0);
    IS(finishes(), 0);
    mpheap_close(&heap);
}

/* The word is cleared whatever is there, and the link may name the object by any of its bytes. */
static void whatever_the_word_is(void) {
    opens();
    makes_holder(2);
    makes(NAMED);
    IS(mpheap_add(&heap, me, OTHER, NAMED, 9), MPHEAP_OK);
    links(0, OTHER);
    becomes(OTHER, 12345);
    puts_word(0, OTHER);
    goes(NAMED);
    IS(word(0), 0);
    mpheap_close(&heap);
}

/* The last link of a word counts: the object that it named before clears it no more. */
static void a_link_is_replaced(void) {
    opens();
    makes_holder(2);
    makes(NAMED);
    makes(OTHER);
    puts_word(0, NAMED);
    links(0, NAMED);
    links(0, OTHER);
    goes(NAMED);
    IS(word(0) != 0, 1);
    goes(OTHER);
    IS(word(0), 0);
    mpheap_close(&heap);
}

/* An unlink leaves the word, which is then one like others. */
static void a_link_is_taken_away(void) {
    opens();
    makes_holder(2);
    makes(NAMED);
    uint64_t base = in(NAMED);
    puts_word(0, NAMED);
    links(0, NAMED);
    IS(stood(0), 1);
    IS(stood(0), 0);
    goes(NAMED);
    IS(word(0), base);
    mpheap_close(&heap);
}

/* The links of a holder go with it: what lies there next has none. */
static void a_holder_leaves(void) {
    opens();
    makes_holder(2);
    makes(NAMED);
    uint64_t place = in(HOLDER), base = in(NAMED);
    links(0, NAMED);
    goes(HOLDER);
    makes_holder(2);
    IS(in(HOLDER), place);
    puts_word(0, NAMED);
    IS(stood(0), 0);
    goes(NAMED);
    IS(word(0), base);
    mpheap_close(&heap);
}

/* Holder and object in one collection; and an object that holds a link to itself. */
static void both_leave(void) {
    opens();
    makes_holder(2);
    makes(NAMED);
    links(0, NAMED);
    links(1, HOLDER);
    becomes(NAMED, 0);
    becomes(HOLDER, 0);
    IS(collects(), 2);
    makes_holder(2);
    IS(word(0) | word(1), 0);
    IS(stood(0) + stood(1), 0);
    mpheap_close(&heap);
}

/* 64 links stand, and no 65th; one of the 64 may be replaced; all are cleared at once. */
static void there_are_64(void) {
    opens();
    makes_holder(MPHEAP_MAX_LINKS + 1);
    makes(NAMED);
    makes(OTHER);
    uint64_t base = in(NAMED);
    for (uint64_t k = 0; k <= MPHEAP_MAX_LINKS; k++) puts_word(k, NAMED);
    for (uint64_t k = 0; k < MPHEAP_MAX_LINKS; k++) links(k, NAMED);
    IS(mpheap_link(&heap, me, HOLDER, MPHEAP_MAX_LINKS, NAMED), MPHEAP_LINKS_FULL);
    links(63, OTHER);
    IS(stood(0), 1);
    links(MPHEAP_MAX_LINKS, NAMED);
    becomes(NAMED, 0);
    IS(collects(), 1);
    IS(word(0), base);
    for (uint64_t k = 1; k < 63; k++) IS(word(k), 0);
    IS(word(63), base); /* its link names another object */
    IS(word(MPHEAP_MAX_LINKS), 0);
    for (uint64_t k = 0; k < 63; k++) links(k, OTHER);
    IS(mpheap_link(&heap, me, HOLDER, MPHEAP_MAX_LINKS, OTHER), MPHEAP_LINKS_FULL);
    mpheap_close(&heap);
}

/* The first reason of each refusal is told, and the link that stands at word 1 stays, with all words and registers. */
static void refusals_change_nothing(void) {
    uint64_t count = UNTOUCHED;
    opens();
    makes_holder(2);
    makes(NAMED);
    makes(OTHER);
    uint64_t base = in(NAMED), holder = in(HOLDER);
    puts_word(1, NAMED);
    links(1, NAMED);
    becomes(NUMBER, 4);
    IS(mpheap_link(&heap, me, NUMBER, 0, NUMBER), MPHEAP_MISALIGNED);
    becomes(NUMBER, 8);
    IS(mpheap_link(&heap, me, NUMBER, 0, OTHER), MPHEAP_NO_OBJECT);
    IS(mpheap_link(&heap, me, OTHER, 0, NUMBER), MPHEAP_NOT_POINTER_FREE);
    IS(mpheap_link(&heap, me, HOLDER, 1, NUMBER), MPHEAP_NO_OBJECT);
    IS(mpheap_link(&heap, me, HOLDER, 2, OTHER), MPHEAP_NO_OBJECT);
    IS(mpheap_unlink(&heap, me + 1, HOLDER, 1, &count), MPHEAP_NO_SLOT);
    IS(mpheap_link(&heap, me + 1, HOLDER, 1, OTHER), MPHEAP_NO_SLOT);
    IS(mpheap_unlink(&heap, me, MPHEAP_REGISTERS, 1, &count), MPHEAP_BAD_NUMBER);
    IS(mpheap_link(&heap, me, HOLDER, 1, MPHEAP_REGISTERS), MPHEAP_BAD_NUMBER);
    IS(count, UNTOUCHED);
    IS(mpheap_unlink(&heap, me, NUMBER, 0, &count), MPHEAP_OK); /* where no link can stand none stood */
    IS(count, 0);
    IS(in(HOLDER), holder);
    IS(in(NUMBER), 8);
    IS(word(1), base);
    goes(NAMED);
    IS(word(1), 0);
    mpheap_close(&heap);
}

/* In a mapped heap a program reads the 0 by its pointer. */
static void a_pointer_reads_it(void) {
    IS(mpheap_open_mapped(PAGES, &heap), MPHEAP_OK);
    IS(mpheap_attach(&heap, &me), MPHEAP_OK);
    makes_holder(2);
    makes(NAMED);
    volatile uint64_t *weak = (volatile uint64_t *)(uintptr_t)in(HOLDER);
    *weak = in(NAMED); /* owes no telling: the holder is pointer-free */
    links(0, NAMED);
    IS(collects(), 0);
    IS(*weak, in(NAMED));
    becomes(NAMED, 0);
    IS(collects(), 1);
    IS(*weak, 0);
    mpheap_close(&heap);
}

int main(void) {
    a_free_clears();
    a_collect_clears();
    a_finish_clears();
    while_a_cycle_marks();
    whatever_the_word_is();
    a_link_is_replaced();
    a_link_is_taken_away();
    a_holder_leaves();
    both_leave();
    there_are_64();
    refusals_change_nothing();
    a_pointer_reads_it();
    return counts("links");
}
