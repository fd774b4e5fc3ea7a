/* A collector of a few functions that knows nothing of mpheap, and writes down what it does by mpheap_record.h (docs/REPLAY.md): it stops
 * its one mutator, marks what 16 registers lead to, and sweeps. With -DBUG=1 to 4 it is wrong in one place;
 * recorded_collector.expected says what the checker answers to each.
 *
 *     cc -I../../include recorded_collector.c -o recorded_collector && ./recorded_collector >run
 *     ./mpheap replay --places any $(sed -n 's/^# in //p' run) run */
#include "mpheap_record.h"
#include <stdlib.h>

#ifndef BUG
#define BUG 0
#endif

enum { WORDS = 1024, REGISTERS = 16, NONE = WORDS };

static uint64_t words[WORDS], registers[REGISTERS];
static unsigned lengths[WORDS]; /* of the object that begins at each word, 0 where none does */
static bool is_marked[WORDS];
static unsigned stack[WORDS], depth;
static mpheap_recorder run;

static uint64_t address_of(unsigned at) { return (uint64_t)(uintptr_t)&words[at]; }

/* The word at which the object begins that an address points into. */
static unsigned object_at(uint64_t address) {
    unsigned at, first;
    if (address < address_of(0) || address >= address_of(0) + sizeof words) return NONE;
    at = (unsigned)((address - address_of(0)) / 8);
    for (first = at; first > 0 && lengths[first] == 0; first--) {}
    if (at >= first + lengths[first]) return NONE;
    return first;
}

/* ---- The collector. ---- */

static void mark(uint64_t word) {
    unsigned at = object_at(word);
    if (at == NONE || is_marked[at]) return;
    is_marked[at] = true;
    stack[depth++] = at;
}

static void mark_all(void) {
    unsigned r, at, i;
    for (r = 0; r < REGISTERS - (BUG == 2); r++) mark(registers[r]);
    while (depth > 0) {
        at = stack[--depth];
        for (i = 0; i < lengths[at] - (BUG == 1); i++) mark(words[at + i]);
    }
}

static void collect(void) {
    unsigned at;
    mark_all();
    for (at = 0; at < WORDS; at++) {
        if (lengths[at] > 0 && !is_marked[at]) {
            mpheap_record_gone(&run, address_of(at));
            lengths[at] = 0;
        }
        is_marked[at] = false;
    }
    mpheap_record_collect(&run);
}

/* The first place with so many words in which no object lies. */
static unsigned place_for(unsigned length) {
    unsigned at = 0, end;
    while (at + length <= WORDS) {
        for (end = at; end < at + length && lengths[end] == 0; end++) {}
        if (end == at + length) return at;
        at = end + lengths[end] - (BUG == 3);
    }
    return NONE;
}

/* ---- The calls, each with its line. ---- */

static void set(unsigned r, uint64_t word) {
    registers[r] = word;
    mpheap_record_set(&run, 0, r, word);
}

static void alloc(unsigned r, unsigned length) {
    unsigned at = place_for(length), i;
    if (at == NONE) {
        mpheap_record_alloc(&run, 0, r, length, false, MPHEAP_REFUSED_FULL, 0, 0);
        return;
    }
    for (i = 0; i < length && BUG != 4; i++) words[at + i] = 0;
    lengths[at] = length;
    registers[r] = address_of(at);
    mpheap_record_alloc(&run, 0, r, length, false, 0, registers[r], length);
}

static void store(unsigned r, unsigned offset, unsigned from) {
    if (object_at(registers[r] + 8 * offset) == NONE) abort();
    *((uint64_t *)(uintptr_t)registers[r] + offset) = registers[from];
    mpheap_record_store(&run, 0, r, offset, from, 0);
}

static void load(unsigned to, unsigned r, unsigned offset) {
    if (object_at(registers[r] + 8 * offset) == NONE) abort();
    registers[to] = *((uint64_t *)(uintptr_t)registers[r] + offset);
    mpheap_record_load(&run, 0, to, r, offset, 0, registers[to]);
}

/* ---- A program on it. ---- */

/* A list of so many objects in register 1. Each has a number in its first word, which is 0 at first, and the next one in its last. */
static void make_list(unsigned count) {
    set(1, 0);
    while (count-- > 0) {
        alloc(2, 3);
        load(3, 2, 0);
        set(3, 8 * count);
        store(2, 0, 3);
        store(2, 2, 1);
        set(1, registers[2]);
    }
    set(2, 0);
}

/* Goes along the list, to its end. */
static void look_at_list(void) {
    set(4, registers[1]);
    while (registers[4] != 0) {
        load(5, 4, 0);
        load(4, 4, 2);
    }
}

int main(void) {
    static char memory[1 << 15]; /* 16 bytes for each object that one collection may take, and more */
    mpheap_record_open(&run, STDOUT_FILENO, memory, sizeof memory);
    mpheap_record_dump_at(&run, SIGABRT);
    mpheap_record_attach(&run, 0, 0);
    make_list(8);
    alloc(15, 5);
    collect();
    look_at_list();
    make_list(3); /* the eight are garbage now */
    collect();
    make_list(4);
    look_at_list();
    return mpheap_record_close(&run) != 0;
}
