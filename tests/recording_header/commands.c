/* Writes a line by each function of mpheap_record.h, and of each that may be refused also a refusal, as a legal run of a heap that
 * isn't there: commands.expected has its lines, worked by hand from docs/REPLAY.md and docs/SCRIPTS.md. */
#include "mpheap_record.h"

static mpheap_recorder run;

/* Objects of 4, 2 and 3 words; the last is pointer-free. */
enum { FIRST = 4096, SECOND = 4128, THIRD = 4152 };

static void objects_come(void) {
    mpheap_record_attach(&run, 0, 0);
    mpheap_record_attach(&run, 0, 1);
    mpheap_record_alloc(&run, 0, 1, 3, false, 0, FIRST, 4);
    mpheap_record_alloc(&run, 0, 2, 2, false, 0, SECOND, 2);
    mpheap_record_alloc(&run, 0, 3, 3, true, 0, THIRD, 3);
    mpheap_record_alloc(&run, 0, 4, 0, false, MPHEAP_REFUSED_BAD_SIZE, 0, 0);
    mpheap_record_alloc(&run, 0, 4, 60000, true, MPHEAP_REFUSED_FULL, 0, 0);
}

static void words_go_round(void) {
    mpheap_record_store(&run, 0, 1, 2, 2, 0);
    mpheap_record_load(&run, 0, 4, 1, 2, 0, SECOND);
    mpheap_record_add(&run, 0, 5, 1, 1);
    mpheap_record_load(&run, 0, 6, 5, 0, MPHEAP_REFUSED_MISALIGNED, 0);
    mpheap_record_store(&run, 0, 15, 0, 1, MPHEAP_REFUSED_NO_OBJECT);
    mpheap_record_write(&run, 0, FIRST + 8, 18446744073709551615u);
    mpheap_record_read(&run, 0, FIRST + 8, 18446744073709551615u);
    mpheap_record_base(&run, 0, 7, 5, 0, FIRST);
    mpheap_record_base(&run, 0, 7, 15, MPHEAP_REFUSED_NO_OBJECT, 0);
    mpheap_record_size(&run, 0, 5, 0, 4);
    mpheap_record_size(&run, 0, 15, MPHEAP_REFUSED_NO_OBJECT, 0);
}

static void roots_change(void) {
    mpheap_record_set(&run, 1, 10, 77);
    mpheap_record_copy(&run, 1, 11, 10);
    mpheap_record_sub(&run, 1, 12, 10, 11);
    mpheap_record_get(&run, 1, 11, 77);
    mpheap_record_push(&run, 1, 10, 0);
    mpheap_record_pop(&run, 1, 13, 0, 77);
    mpheap_record_pop(&run, 1, 13, MPHEAP_REFUSED_STACK_EMPTY, 0);
    mpheap_record_gput(&run, 0, 63, 1);
    mpheap_record_gget(&run, 1, 0, 63, FIRST);
    mpheap_record_detach(&run, 1);
    mpheap_record_push(&run, 1, 10, MPHEAP_REFUSED_NO_SLOT);
}

static void links_stand(void) {
    mpheap_record_link(&run, 0, 3, 1, 2, 0);
    mpheap_record_link(&run, 0, 1, 0, 2, MPHEAP_REFUSED_NOT_POINTER_FREE);
    mpheap_record_unlink(&run, 0, 3, 1, 1);
    mpheap_record_unlink(&run, 0, 3, 1, 0);
    mpheap_record_free(&run, 0, 5, MPHEAP_REFUSED_NOT_BASE);
    mpheap_record_free(&run, 0, 3, 0);
}

static void cycles_run(void) {
    mpheap_record_partial(&run, MPHEAP_REFUSED_NEEDS_FULL);
    mpheap_record_roots(&run, MPHEAP_REFUSED_WRONG_PHASE);
    mpheap_record_begin(&run, 0);
    mpheap_record_begin(&run, MPHEAP_REFUSED_WRONG_PHASE);
    mpheap_record_roots(&run, 0);
    mpheap_record_mark(&run, 100, 0, 6);
    mpheap_record_retrace(&run, 0, 0);
    mpheap_record_finish(&run, 0);
    mpheap_record_finish(&run, MPHEAP_REFUSED_WRONG_PHASE);
    mpheap_record_mark(&run, 1, MPHEAP_REFUSED_WRONG_PHASE, 0);
    mpheap_record_retrace(&run, MPHEAP_REFUSED_WRONG_PHASE, 0);
    mpheap_record_sweep(&run, 0);
    mpheap_record_partial(&run, 0);
    mpheap_record_finish(&run, 0);
}

static void objects_go(void) {
    unsigned r;
    mpheap_record_comment(&run, "what nothing leads to goes");
    for (r = 0; r < 8; r++) mpheap_record_set(&run, 0, r, 0);
    mpheap_record_set(&run, 0, 4, SECOND);
    mpheap_record_gput(&run, 0, 63, 0);
    mpheap_record_gone(&run, FIRST);
    mpheap_record_collect(&run);
    mpheap_record_set(&run, 0, 4, 0);
    mpheap_record_begin(&run, 0);
    mpheap_record_gone(&run, SECOND);
    mpheap_record_finish(&run, 0);
    mpheap_record_collect(&run);
    mpheap_record_no(&run, 5);
}

static void slots_run_out(void) {
    unsigned slot;
    for (slot = 1; slot < 16; slot++) mpheap_record_attach(&run, 0, slot);
    mpheap_record_attach(&run, MPHEAP_REFUSED_NO_SLOT, 0);
    mpheap_record_set(&run, 15, 9, 9);
}

int main(void) {
    static char memory[2048];
    mpheap_record_open(&run, STDOUT_FILENO, memory, sizeof memory);
    objects_come();
    words_go_round();
    roots_change();
    links_stand();
    cycles_run();
    objects_go();
    slots_run_out();
    return mpheap_record_close(&run) != 0;
}
