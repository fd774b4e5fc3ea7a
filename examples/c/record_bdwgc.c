/* A recorder for bdwgc, the Boehm-Demers-Weiser collector: a program runs on its heap, and each call is printed as a line that
 * ./mpheap replay --places any judges (docs/REPLAY.md). Nothing here is proved, and of bdwgc only what this run shows is judged.
 *
 *     cc -std=c99 record_bdwgc.c -lgc -o record_bdwgc && ./record_bdwgc >run
 *     ./mpheap replay --places any $(sed -n 's/^# in //p' run) run
 *
 * What is recorded. The 16 registers are an array that bdwgc scans as a part of the program's data; pointers stand in them, in
 * objects and in lines as they are, interior ones too. The last line is a comment with the range in which the objects lay. An alloc
 * has the number of words that GC_size tells, but for the last one (below), and a full cycle (GC_gcollect) the bases of the objects
 * whose disappearing links it cleared: these stand disguised in a table, and bdwgc clears them as soon as it finds an object
 * inaccessible. Collections of bdwgc's own accord are off, since they would take objects away between two lines.
 * GC_malloc_atomic doesn't clear what it gives, so alloc does.
 *
 * bdwgc is conservative: a word that is left on the C stack may keep an object that nothing recorded leads to, and the line of the
 * cycle then isn't legal, since that object has to go. So the mutator runs in frames of its own, and the stack below them is wiped.
 *
 * With -DBUG=1 to 5 the recorder is wrong in one place; record_bdwgc.expected says what the checker answers to each. */
#include <gc.h>
#include <inttypes.h>
#include <stdbool.h>
#include <stdint.h>
#include <stdio.h>
#include <stdlib.h>
#include <string.h>

#ifndef BUG
#define BUG 0
#endif

enum { PAGE_BYTES = 4096, MOST_BYTES = 4096 * PAGE_BYTES, REGISTERS = 16, OBJECTS = 4096, STEPS = 2000, STEPS_TO_A_CYCLE = 40 };

static uintptr_t registers[REGISTERS];

/* What is known of an object: its address, disguised, which bdwgc makes 0 when the object is gone, and its complement, which stays.
 * As they are addresses would keep their objects, here too. */
typedef struct {
    void *link;
    uintptr_t hidden;
} object;

static object objects[OBJECTS];
static uintptr_t first_page = UINTPTR_MAX, end_page; /* of all objects, and the page behind them */
static int collections;

/* ---- Lines. ---- */

static uintptr_t base_of(uintptr_t value) { return (uintptr_t)GC_base((void *)value); }

/* How many words an object has. GC_size counts one more, in which bdwgc keeps the byte just behind them, so that the address there
 * keeps the object too; it doesn't read that word. */
static uintptr_t words_of(uintptr_t base) {
    return (GC_size((void *)base) - (BUG == 5 ? 0 : (size_t)GC_get_all_interior_pointers())) / 8;
}

/* ---- The calls, each with its line. ---- */

static void set(int r, uintptr_t value) {
    registers[r] = value;
    printf("0 set %d %" PRIuPTR " => ok\n", r, value);
}

static void copy(int to, int from) {
    registers[to] = registers[from];
    printf("0 copy %d %d => ok\n", to, from);
}

static void add(int to, int from, uintptr_t number) {
    registers[to] = registers[from] + number;
    printf("0 add %d %d %" PRIuPTR " => ok\n", to, from, number);
}

/* Keeps a link to an object that bdwgc clears when the object is gone. */
static void know(uintptr_t base) {
    int i;
    for (i = 0; i < OBJECTS && objects[i].hidden != 0; i++) {}
    if (i == OBJECTS) exit(1);
    if (base / PAGE_BYTES < first_page) first_page = base / PAGE_BYTES;
    if ((base + GC_size((void *)base)) / PAGE_BYTES >= end_page) end_page = (base + GC_size((void *)base)) / PAGE_BYTES + 1;
    objects[i].link = (void *)GC_HIDE_POINTER((void *)base);
    objects[i].hidden = ~base;
    if (GC_general_register_disappearing_link(&objects[i].link, (void *)base) != GC_SUCCESS) exit(1);
}

/* Where an object is said to lie. A bug says of an object that it lies where the one before does. */
static uintptr_t place_of(uintptr_t base) {
    static uintptr_t hidden;
    uintptr_t place = BUG == 4 && hidden != 0 ? ~hidden : base;
    hidden = ~place;
    return place;
}

static void alloc(int r, unsigned length, bool atomic) {
    uintptr_t base = (uintptr_t)(atomic ? GC_malloc_atomic(8 * length) : GC_malloc(8 * length));
    printf("0 alloc %d %u %s => ", r, length, atomic ? "atomic" : "normal");
    if (base == 0) {
        printf("refused 6 Full\n");
        return;
    }
    if (atomic) memset((void *)base, 0, GC_size((void *)base));
    know(base);
    registers[r] = base;
    printf("ok @ %" PRIuPTR " %" PRIuPTR "\n", place_of(base), words_of(base));
}

static bool is_refused(uintptr_t address) {
    if (address % 8 != 0) printf("refused 2 Misaligned\n");
    else if (base_of(address) == 0) printf("refused 3 NoObject\n");
    else return false;
    return true;
}

static void store(int r, uintptr_t offset, int from) {
    uintptr_t address = registers[r] + 8 * offset;
    printf("0 store %d %" PRIuPTR " %d => ", r, offset, from);
    if (is_refused(address)) return;
    *(uintptr_t *)address = registers[from];
    printf("ok\n");
}

static void load(int to, int r, uintptr_t offset) {
    uintptr_t address = registers[r] + 8 * offset;
    printf("0 load %d %d %" PRIuPTR " => ", to, r, offset);
    if (is_refused(address)) return;
    registers[to] = *(uintptr_t *)address;
    printf("%" PRIuPTR "\n", registers[to]);
}

static void base(int to, int r) {
    uintptr_t found = base_of(registers[r]);
    printf("0 base %d %d => ", to, r);
    if (found == 0) {
        printf("refused 3 NoObject\n");
        return;
    }
    registers[to] = found;
    printf("%" PRIuPTR "\n", found);
}

static void size(int r) {
    uintptr_t found = base_of(registers[r]);
    printf("0 size %d => ", r);
    if (found == 0) printf("refused 3 NoObject\n");
    else printf("%" PRIuPTR "\n", BUG == 1 ? words_of(found) - 1 : words_of(found));
}

/* ---- Cycles. ---- */

/* Overwrites what earlier calls left on the stack. */
static void wipe_stack(void) {
    volatile char bytes[1 << 16];
    size_t i;
    for (i = 0; i < sizeof bytes; i++) bytes[i] = 0;
}

/* Prints the objects whose links were cleared. A bug leaves the last one out, or names the first one that is still there. */
static void print_gone(void) {
    int i, at = 0, gone[OBJECTS + 1];
    for (i = 0; i < OBJECTS; i++)
        if (objects[i].hidden != 0 && (objects[i].link == NULL || (BUG == 3 && at == 0))) gone[at++] = i;
    if (BUG == 2 && at > 0) at--;
    printf("gc collect => %d -", at);
    for (i = 0; i < at; i++) {
        printf(" %" PRIuPTR, ~objects[gone[i]].hidden);
        if (objects[gone[i]].link != NULL) GC_unregister_disappearing_link(&objects[gone[i]].link);
        objects[gone[i]].hidden = 0;
    }
    printf("\n");
}

static void collect(void) {
    GC_enable();
    GC_gcollect();
    GC_disable();
    collections++;
    print_gone();
    printf("gc no => %d\n", collections);
}

/* ---- A program on the heap. ---- */

static uint64_t state = 20;

/* A number below a bound, by a generator that gives the same ones each time. */
static unsigned below(unsigned bound) {
    state = state * 6364136223846793005u + 1442695040888963407u;
    return (unsigned)((state >> 33) % bound);
}

/* How many words of its object stand from a register's address on: 0 where it points into none. */
static unsigned room_at(int r) {
    uintptr_t found = base_of(registers[r]);
    return found == 0 ? 0 : (unsigned)(words_of(found) - (registers[r] - found) / 8);
}

/* A new list of so many pairs in register 1: each leads to the next one by its first word, and has a number in its second. */
static void make_list(unsigned count) {
    set(1, 0);
    while (count-- > 0) {
        alloc(2, 2, false);
        store(2, 0, 1);
        set(3, 8 * count);
        store(2, 1, 3);
        copy(1, 2);
    }
}

/* The third pair is cut off, and those behind it are left to a register that points into the fourth; the last word of the second pair
 * leads to a new pair. */
static void cut_list(void) {
    load(2, 1, 0);
    load(3, 2, 0);
    load(4, 3, 0);
    add(4, 4, 8);
    set(3, 0);
    store(2, 0, 3);
    alloc(3, 2, true);
    store(2, room_at(2) - 1, 3);
    set(3, 0);
}

static void look_at_list(void) {
    load(3, 4, 0);
    base(5, 4);
    size(5);
    load(3, 2, room_at(2) - 1);
    size(3);
}

/* Stores one register to the object of another: to a pointer-free one only numbers, since it would keep nothing. */
static void store_somewhere(int r, int from) {
    unsigned room = room_at(r);
    if (base_of(registers[from]) == 0 || (r < 8 && room > 0)) store(r, room > 0 ? below(room) : below(4), from);
}

/* One call. Registers below 8 have normal objects or numbers, and those from 8 to 11 pointer-free ones. */
static void act(void) {
    int to = (int)below(8), from = (int)below(8), holder = (int)below(12);
    unsigned room = room_at(from);
    switch (below(10)) {
        case 0: alloc(to, 1 + below(from == 0 ? 800 : 30), false); break;
        case 1: alloc(8 + to / 2, 1 + below(30), true); break;
        case 2: copy(to, from); break;
        case 3: set(from == 0 ? holder : to, 8 * below(100)); break;
        case 4: if (room > 0) add(to, from, 8 * below(room)); break;
        case 5: base(to, from); break;
        case 6: size(holder); break;
        case 7: if (room > 0) load(to, from, below(room)); break;
        default: store_somewhere(holder, from);
    }
}

static void forget_all(void) {
    int r;
    for (r = 0; r < REGISTERS; r++) set(r, 0);
}

static void use_list(void) {
    make_list(8);
    cut_list();
}

/* Calls a part of the program in frames of its own, which no compiler puts into main's. */
static void run(void (*part)(void)) {
    void (*volatile call)(void) = part;
    call();
}

static void run_cycle(void) {
    run(wipe_stack);
    run(collect);
}

/* Where the objects lay, as the checker has to be told. */
static void print_range(void) {
    uintptr_t bytes = (end_page - first_page) * PAGE_BYTES;
    if (bytes > MOST_BYTES) {
        fprintf(stderr, "record_bdwgc: the heap is larger than a run may be\n");
        exit(1);
    }
    printf("# in --from %" PRIuPTR " --bytes %" PRIuPTR "\n", first_page * PAGE_BYTES, bytes);
}

int main(void) {
    int step;
    GC_set_max_heap_size(MOST_BYTES);
    GC_INIT();
    GC_disable();
    printf("attach => mutator 0\n");
    run(use_list);
    run_cycle();
    run(look_at_list);
    for (step = 0; step < STEPS; step++) {
        run(act);
        if (step % STEPS_TO_A_CYCLE == 0) run_cycle();
    }
    run(forget_all);
    run_cycle();
    print_range();
    return 0;
}
