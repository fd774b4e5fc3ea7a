/* A hobby collector that knows nothing of mpheap, with a recorder: it prints each call on it as a line that ./mpheap replay
 * judges (docs/REPLAY.md). It marks between its mutator's calls and reads again at the end what was stored to. With
 * -DBUG=1 to 8 it is wrong in one place; foreign_heap.expected says what the checker answers to each. Nothing here is proved. */
#include <inttypes.h>
#include <stdbool.h>
#include <stdint.h>
#include <stdio.h>

#ifndef BUG
#define BUG 0
#endif

enum { PAGES = 4, PAGE_WORDS = 512, WORDS = PAGES * PAGE_WORDS, REGISTERS = 16, CLASSES = 13, NONE = -1 };

static const uint64_t FIRST = 268435456; /* where the heap begins */
static const int class_words[CLASSES] = {2, 4, 6, 8, 12, 16, 24, 32, 48, 64, 96, 128, 256};

/* What the heap knows of the word at which an object may begin. */
typedef struct {
    int length; /* 0 where no object begins */
    bool atomic, marked;
} header;

/* What a page is cut for, as long as objects lie on it. */
typedef struct {
    int objects, cell; /* cell 0: a part of a large object */
    bool atomic, dirty;
} page;

static uint64_t words[WORDS];
static header headers[WORDS];
static page pages[PAGES];
static int stack[WORDS], depth;
static bool marking;
static int collections;
static uint64_t registers[REGISTERS];

static uint64_t address_of(int word) { return FIRST + 8 * (uint64_t)word; }

/* The word at which the object begins that an address points into. */
static int object_at(uint64_t address) {
    int word;
    if (address < FIRST || address >= address_of(WORDS)) return NONE;
    for (word = (int)((address - FIRST) / 8); word >= 0; word--)
        if (headers[word].length > 0) return address < address_of(word + headers[word].length) ? word : NONE;
    return NONE;
}

/* ---- Placement: as docs/REPLAY.md has it, "Where objects may lie". ---- */

static int cell_for(int length) {
    int i;
    for (i = 0; i < CLASSES; i++)
        if (length <= class_words[i]) return class_words[i];
    return 0;
}

static int small_place(int cell, bool atomic) {
    int p, i;
    for (p = 0; p < PAGES; p++) {
        if (pages[p].objects > 0 && (pages[p].cell != cell || pages[p].atomic != atomic)) continue;
        for (i = 0; (i + 1) * cell <= PAGE_WORDS - (BUG == 6 ? cell : 0); i++)
            if (headers[p * PAGE_WORDS + i * cell].length == 0) return p * PAGE_WORDS + i * cell;
    }
    return NONE;
}

static int large_place(int count) {
    int p, free_pages = 0;
    for (p = 0; p < PAGES; p++) {
        free_pages = pages[p].objects == 0 ? free_pages + 1 : 0;
        if (free_pages == count) return (p + 1 - count) * PAGE_WORDS;
    }
    return NONE;
}

/* One object more or less on each of its pages. */
static void count_on_pages(int word, int cell, int by) {
    int p;
    for (p = word / PAGE_WORDS; p <= (word + headers[word].length - 1) / PAGE_WORDS; p++) {
        pages[p].objects += by;
        pages[p].cell = cell;
        pages[p].atomic = headers[word].atomic;
    }
}

static int place(int length, bool atomic) {
    int i, cell = cell_for(length), count = (length + PAGE_WORDS - 1) / PAGE_WORDS;
    int word = cell > 0 ? small_place(cell, atomic) : large_place(count);
    if (word == NONE) return NONE;
    headers[word].length = cell > 0 ? cell : count * PAGE_WORDS;
    headers[word].atomic = atomic;
    headers[word].marked = marking;
    count_on_pages(word, cell, 1);
    for (i = 0; i < headers[word].length && BUG != 5; i++) words[word + i] = 0;
    return word;
}

static void forget(int word) {
    count_on_pages(word, pages[word / PAGE_WORDS].cell, -1);
    headers[word].length = 0;
}

/* ---- The collector. ---- */

static void mark(uint64_t value) {
    int word = object_at(value);
    if (word == NONE || headers[word].marked) return;
    headers[word].marked = true;
    stack[depth++] = word;
}

static void read_object(int word) {
    int i;
    if (headers[word].atomic && BUG != 8) return;
    for (i = 0; i < headers[word].length; i++) mark(words[word + i]);
}

static void mark_roots(void) {
    int r;
    for (r = 0; r < REGISTERS; r++) mark(registers[r]);
}

/* Reads at most so many objects of the mark stack. */
static int trace(int most) {
    int count;
    for (count = 0; count < most && depth > 0; count++) read_object(stack[--depth]);
    return count;
}

static void begin_cycle(void) {
    int i;
    for (i = 0; i < WORDS; i++) headers[i].marked = false;
    for (i = 0; i < PAGES; i++) pages[i].dirty = false;
    depth = 0;
    marking = true;
    mark_roots();
}

static void read_dirty_pages(void) {
    int word;
    for (word = 0; word < WORDS; word++)
        if (headers[word].length > 0 && headers[word].marked && pages[word / PAGE_WORDS].dirty) read_object(word);
}

/* Forgets what isn't marked, and prints how many these are and their bases. */
static void forget_unmarked(void) {
    int word, count = 0, gone[WORDS];
    for (word = BUG == 2 ? PAGE_WORDS : 0; word < WORDS; word++)
        if (headers[word].length > 0 && !headers[word].marked) gone[count++] = word;
    printf("%d -", count);
    for (word = 0; word < count; word++) {
        printf(" %" PRIu64, address_of(gone[word]));
        forget(gone[word]);
    }
    printf("\n");
    collections++;
    marking = false;
}

static void finish_cycle(void) {
    if (BUG != 1) mark_roots();
    trace(WORDS);
    read_dirty_pages();
    trace(WORDS);
    forget_unmarked();
}

/* ---- The calls, each with its line. ---- */

static void attach(void) { printf("attach => mutator 0\n"); }

static void set(int r, uint64_t value) {
    registers[r] = value;
    printf("0 set %d %" PRIu64 " => ok\n", r, value);
}

static void copy(int to, int from) {
    registers[to] = registers[from];
    printf("0 copy %d %d => ok\n", to, from);
}

static void add(int to, int from, uint64_t number) {
    registers[to] = registers[from] + number;
    printf("0 add %d %d %" PRIu64 " => ok\n", to, from, number);
}

static void alloc(int r, int length, bool atomic) {
    int word = place(length, atomic);
    printf("0 alloc %d %d %s => ", r, length, atomic ? "atomic" : "normal");
    if (word == NONE) {
        printf("refused 6 Full\n");
        return;
    }
    registers[r] = address_of(word);
    printf("ok @ %" PRIu64 "\n", registers[r]);
}

static bool is_refused(uint64_t address) {
    if (address % 8 != 0) printf("refused 2 Misaligned\n");
    else if (object_at(address) == NONE) printf("refused 3 NoObject\n");
    else return false;
    return true;
}

static void store(int r, int offset, int from) {
    uint64_t address = registers[r] + 8 * (uint64_t)offset;
    int word;
    printf("0 store %d %d %d => ", r, offset, from);
    if (is_refused(address)) return;
    word = (int)((address - FIRST) / 8);
    if (!(BUG == 7 && marking)) words[word] = registers[from];
    if (BUG != 3) pages[object_at(address) / PAGE_WORDS].dirty = true;
    printf("ok\n");
}

static void load(int to, int r, int offset) {
    uint64_t address = registers[r] + 8 * (uint64_t)offset;
    printf("0 load %d %d %d => ", to, r, offset);
    if (is_refused(address)) return;
    registers[to] = words[(address - FIRST) / 8];
    printf("%" PRIu64 "\n", registers[to]);
}

static void base(int to, int r) {
    int word = object_at(registers[r]);
    printf("0 base %d %d => ", to, r);
    if (word == NONE) {
        printf("refused 3 NoObject\n");
        return;
    }
    registers[to] = BUG == 4 ? registers[r] / 16 * 16 : address_of(word);
    printf("%" PRIu64 "\n", registers[to]);
}

static void size(int r) {
    int word = object_at(registers[r]);
    printf("0 size %d => ", r);
    if (word == NONE) printf("refused 3 NoObject\n");
    else printf("%d\n", headers[word].length);
}

static void gc_begin(void) {
    begin_cycle();
    printf("gc begin => ok\n");
}

static void gc_mark(int most) { printf("gc mark %d => %d\n", most, trace(most)); }

static void gc_finish(void) {
    printf("gc finish => ");
    finish_cycle();
}

static void gc_collect(void) {
    printf("gc collect => ");
    begin_cycle();
    finish_cycle();
}

static void gc_number(void) { printf("gc no => %d\n", collections); }

/* ---- A program on the heap. ---- */

/* So many pairs in register 1: the first word of each is the next one, and the second the pair itself. */
static void make_pairs(int count) {
    set(1, 0);
    while (count-- > 0) {
        alloc(2, 2, false);
        store(2, 0, 1);
        store(2, 1, 2);
        copy(1, 2);
    }
    set(2, 0);
}

/* The middle one of three pairs is cut off, goes in the next cycle, and its cell is used again. */
static void dead_pairs_go(void) {
    make_pairs(3);
    load(3, 1, 0);
    load(4, 3, 0);
    store(1, 0, 4);
    set(3, 0);
    set(4, 0);
    gc_begin();
    gc_mark(1);
    gc_finish();
    alloc(2, 2, false);
    load(3, 2, 1);
}

/* While a cycle marks, the last pair moves from an object that wasn't read yet into a register. */
static void pairs_in_registers_stay(void) {
    gc_begin();
    load(4, 1, 0);
    store(1, 0, 5);
    gc_mark(64);
    gc_finish();
    size(4);
}

/* And into an object that isn't read again unless its page is dirty. */
static void pairs_on_dirty_pages_stay(void) {
    store(1, 0, 4);
    set(4, 0);
    gc_begin();
    alloc(6, 4, false);
    store(6, 0, 6);
    load(7, 6, 0);
    load(4, 1, 0);
    store(6, 3, 4);
    store(1, 0, 5);
    set(4, 0);
    gc_mark(64);
    gc_finish();
    load(4, 6, 3);
    size(4);
    add(7, 6, 24);
    base(8, 7);
}

/* A pointer-free object holds the address of a pair, and keeps nothing. */
static void words_of_atomic_objects_keep_nothing(void) {
    alloc(9, 2, true);
    store(9, 1, 4);
    set(4, 0);
    set(8, 0);
    store(6, 3, 8);
    gc_begin();
    gc_mark(64);
    gc_finish();
    load(4, 9, 1);
    size(4);
}

/* The one page that is left takes two objects of 256 words, and no third. */
static void a_heap_fills_up(void) {
    alloc(10, 256, false);
    alloc(11, 200, false);
    alloc(12, 256, false);
    set(10, 0);
    set(11, 0);
    gc_collect();
    alloc(10, 300, true);
    size(10);
    gc_number();
}

int main(void) {
    attach();
    dead_pairs_go();
    pairs_in_registers_stay();
    pairs_on_dirty_pages_stay();
    words_of_atomic_objects_keep_nothing();
    a_heap_fills_up();
    return 0;
}
