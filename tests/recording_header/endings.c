/* How runs end that mpheap_record.h writes, by the word that this is given: a run in a file, in rings that lose no line or some, or that
 * begin anew, of a process that aborts, and with faults. Each is the same program on a heap that isn't there, and prints what it has to. */
#include "mpheap_record.h"
#include <stdio.h>
#include <stdlib.h>

enum { FIRST = 4096, ROUNDS = 200 };

static mpheap_recorder run;
static char memory[1 << 16];

/* Lines of many lengths, in each of which a register has its number. */
static void count_up(void) {
    uint64_t number = 1;
    int round;
    mpheap_record_attach(&run, 0, 0);
    for (round = 0; round < ROUNDS; round++, number *= 3) {
        mpheap_record_set(&run, 0, 1, number);
        mpheap_record_get(&run, 0, 1, number);
    }
}

/* Objects of two words come, each points into itself, and all but the last go. The answer is where the next object would lie. */
static uint64_t make_garbage(uint64_t from, unsigned count) {
    unsigned at;
    for (at = 0; at < count; at++) {
        mpheap_record_alloc(&run, 0, 1, 2, false, 0, from + 16 * at, 2);
        mpheap_record_store(&run, 0, 1, 0, 1, 0);
    }
    for (at = 0; at + 1 < count; at++) mpheap_record_gone(&run, from + 16 * at);
    mpheap_record_collect(&run);
    return from + 16 * count;
}

/* The heap as it is behind make_garbage: one object, which a register points into. */
static void tell_heap_anew(uint64_t address) {
    mpheap_record_restart(&run);
    mpheap_record_attach(&run, 0, 0);
    mpheap_record_alloc(&run, 0, 1, 2, false, 0, address, 2);
    mpheap_record_write(&run, 0, address, address);
    mpheap_record_load(&run, 0, 2, 1, 0, 0, address);
}

static int end_with(int wanted) {
    int lines = (int)run.lines, fault = mpheap_record_close(&run);
    count_up();
    fprintf(stderr, "%d lines, fault %d\n", lines, fault);
    return fault != wanted;
}

/* opens WORD: the run that the word names; a ring of so many bytes where it has a number. */
static void open_run(const char *word, const char *number) {
    size_t bytes = number == NULL ? sizeof memory : (size_t)atoi(number);
    if (strncmp(word, "ring", 4) == 0) mpheap_record_open_ring(&run, STDOUT_FILENO, memory, bytes);
    else mpheap_record_open(&run, STDOUT_FILENO, memory, bytes);
}

int main(int count, char **words) {
    const char *word = count > 1 ? words[1] : "";
    uint64_t next;
    open_run(word, count > 2 ? words[2] : NULL);
    if (strcmp(word, "small") == 0) return end_with(EINVAL);
    count_up();
    next = make_garbage(FIRST, 100);
    if (strcmp(word, "ring_anew") == 0) tell_heap_anew(next - 16);
    if (strcmp(word, "too_many") == 0) make_garbage(next, 1000);
    if (strcmp(word, "too_many") == 0) return end_with(MPHEAP_RECORD_TOO_MANY_GONE);
    if (strcmp(word, "full") == 0) return end_with(ENOSPC);
    if (strcmp(word, "flushed") == 0) _exit(mpheap_record_flush(&run));
    mpheap_record_dump_at(&run, SIGABRT);
    if (strstr(word, "abort") != NULL) abort();
    return end_with(0);
}
