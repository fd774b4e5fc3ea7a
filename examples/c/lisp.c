/* A small Lisp whose objects lie in a collected heap: lisp [PAGES] < PROGRAM.
 *
 * It is a machine of five words (code, environment, what is still to be done, value, table of globals). They are the words of
 * one object that a global of the heap names, and all that the machine needs hangs on them. Every few instructions, and only
 * there, the collector takes a small step; within an instruction a variable of C may hold an object, and nothing collects.
 * Words are read by pointers, and written by pointers too, each page told once while a cycle is marking.
 *
 * A value is a word. Numbers, symbols and primitives have one of the three highest bits, so they are no addresses; a pair is
 * its address (car, cdr); a closure is its address + 1 (parameters, body, environment) and a string its address + 2 (length,
 * bytes, in an object that the collector doesn't read): addresses inside of the object, which keep it too. 0 is (). */
#define _POSIX_C_SOURCE 199309L
#include "mpheap.h"
#include <ctype.h>
#include <stdio.h>
#include <stdlib.h>
#include <time.h>

typedef uint64_t word;

enum { CODE, ENVIRONMENT, NEXT, VALUE, GLOBALS, STATE_WORDS };
enum { SYMBOLS = 512, NEW = 0, STATE = 0, INSTRUCTIONS_A_STEP = 16, RESERVE = 8, TEXT = 1 << 16 };
enum kind { IF_FRAME, DEFINE_FRAME, CALL_FRAME, LAST_FRAME };
enum { NIL = 0 };

static mpheap heap = MPHEAP_CLOSED;
static mpheap_told told = MPHEAP_TOLD;
static mpheap_pace pace;
static uint8_t me;
static word *state;
static word allocated;
static bool has_value;

static void stop(const char *why) {
    fflush(stdout);
    fprintf(stderr, "lisp: %s\n", why);
    exit(1);
}

/* ---- Words and objects ---- */

static word *at(word object) {
    return (word *)(uintptr_t)(object & ~(word)7);
}

static void put(word object, int place, word value) {
    mpheap_write(&heap, &told, at(object) + place, value);
}

static void set(int place, word value) {
    mpheap_write(&heap, &told, state + place, value);
}

static word allocate(word words) {
    word base = 0;
    if (mpheap_alloc_base(&heap, me, NEW, words, &base) != MPHEAP_OK) stop("out of memory");
    allocated += words;
    return base;
}

static word number(int64_t n) {
    return (word)1 << 63 | ((word)n & ((word)-1 >> 1));
}

static bool is_number(word w) {
    return w >> 63 == 1;
}

static int64_t value_of(word w) {
    int64_t n = (int64_t)(w & ((word)-1 >> 1));
    return n < (int64_t)1 << 62 ? n : n - INT64_MAX - 1;
}

static bool is_symbol(word w) {
    return w >> 62 == 1;
}

static bool is_primitive(word w) {
    return w >> 61 == 1;
}

static bool is_pair(word w) {
    return w != NIL && w >> 61 == 0 && w % 8 == 0;
}

static bool is_closure(word w) {
    return w >> 61 == 0 && w % 8 == 1;
}

static bool is_string(word w) {
    return w >> 61 == 0 && w % 8 == 2;
}

static word car(word w) {
    if (!is_pair(w)) stop("the car of what is no pair");
    return at(w)[0];
}

static word cdr(word w) {
    if (!is_pair(w)) stop("the cdr of what is no pair");
    return at(w)[1];
}

static word cons(word first, word rest) {
    word pair = allocate(2);
    put(pair, 0, first);
    put(pair, 1, rest);
    return pair;
}

/* The bytes of a string begin behind its length. */
static char *bytes_of(word string) {
    return (char *)(at(string) + 1);
}

static word new_string(word length) {
    word base = 0, words = 1 + (length + 7) / 8;
    if (mpheap_alloc_pointer_free_base(&heap, me, NEW, words, &base) != MPHEAP_OK) stop("no room for a string");
    allocated += words;
    *at(base) = length; /* an object that the collector doesn't read needs no telling */
    return base + 2;
}

static word append(word first, word second) {
    if (!is_string(first) || !is_string(second)) stop("string-append of what is no string");
    word string = new_string(at(first)[0] + at(second)[0]);
    memcpy(bytes_of(string), bytes_of(first), at(first)[0]);
    memcpy(bytes_of(string) + at(first)[0], bytes_of(second), at(second)[0]);
    return string;
}

/* ---- Symbols ---- */

static char *names[SYMBOLS];
static int name_count;

static word symbol(const char *name, size_t length) {
    for (int i = 0; i < name_count; i++)
        if (strlen(names[i]) == length && memcmp(names[i], name, length) == 0) return (word)1 << 62 | (word)i;
    if (name_count == SYMBOLS) stop("too many symbols");
    char *copy = (char *)malloc(length + 1);
    if (copy == NULL) stop("out of memory");
    memcpy(copy, name, length);
    copy[length] = 0;
    names[name_count] = copy;
    return (word)1 << 62 | (word)name_count++;
}

static int index_of(word symbol) {
    return (int)(symbol & (SYMBOLS - 1));
}

/* ---- Reading and printing ---- */

static const char *text;

static void skip_blanks(void) {
    while (isspace((unsigned char)*text)) text++;
}

static word read_one(void);

static word read_list(void) {
    word first = NIL, last = NIL;
    for (skip_blanks(); *text != ')'; skip_blanks()) {
        if (*text == 0) stop("a list has no end");
        word pair = cons(read_one(), NIL);
        if (first == NIL) {
            first = pair;
        } else {
            put(last, 1, pair);
        }
        last = pair;
    }
    text++;
    return first;
}

static word read_string(void) {
    const char *end = strchr(text, '"');
    if (end == NULL) stop("a string has no end");
    word string = new_string((word)(end - text));
    memcpy(bytes_of(string), text, (size_t)(end - text));
    text = end + 1;
    return string;
}

static word read_one(void) {
    skip_blanks();
    const char *start = text++;
    if (*start == '(') return read_list();
    if (*start == '"') return read_string();
    while (*text != 0 && !isspace((unsigned char)*text) && *text != '(' && *text != ')') text++;
    if (isdigit((unsigned char)*start)) return number(strtoll(start, NULL, 10));
    return symbol(start, (size_t)(text - start));
}

static void print(word w) {
    if (is_number(w)) {
        printf("%lld", (long long)value_of(w));
    } else if (is_symbol(w)) {
        fputs(names[index_of(w)], stdout);
    } else if (is_string(w)) {
        fwrite(bytes_of(w), 1, at(w)[0], stdout);
    } else if (is_closure(w) || is_primitive(w)) {
        fputs("#function", stdout);
    } else {
        putchar('(');
        for (word rest = w; is_pair(rest); rest = cdr(rest)) {
            if (rest != w) putchar(' ');
            print(car(rest));
        }
        putchar(')');
    }
}

/* ---- Primitives ---- */

enum { PLUS, MINUS, TIMES, LESS, EQUAL, CONS, CAR, CDR, IS_NULL, APPEND, LENGTH, PRIMITIVES };
static const char *const primitives[PRIMITIVES] = {
    "+", "-", "*", "<", "=", "cons", "car", "cdr", "null?", "string-append", "string-length"
};

static word truth(bool is_so) {
    return is_so ? number(1) : (word)NIL;
}

static word primitive(int which, word arguments) {
    word a = car(arguments), b = is_pair(cdr(arguments)) ? car(cdr(arguments)) : (word)NIL;
    switch (which) {
    case PLUS: return number(value_of(a) + value_of(b));
    case MINUS: return number(value_of(a) - value_of(b));
    case TIMES: return number((int64_t)((word)value_of(a) * (word)value_of(b)));
    case LESS: return truth(value_of(a) < value_of(b));
    case EQUAL: return truth(a == b);
    case CONS: return cons(a, b);
    case CAR: return car(a);
    case CDR: return cdr(a);
    case IS_NULL: return truth(a == NIL);
    case APPEND: return append(a, b);
    default: return is_string(a) ? number((int64_t)at(a)[0]) : (word)NIL;
    }
}

/* ---- The machine ---- */

static word QUOTE, LAMBDA, IF, DEFINE;

static void give(word value) {
    set(VALUE, value);
    has_value = true;
}

static void go_on(word code, word environment) {
    set(CODE, code);
    set(ENVIRONMENT, environment);
    has_value = false;
}

/* What is still to be done: a kind, code that is left, its environment, values so far, and what is to be done then. */
static void push(enum kind kind, word rest, word values) {
    word frame = allocate(5);
    put(frame, 0, number(kind));
    put(frame, 1, rest);
    put(frame, 2, state[ENVIRONMENT]);
    put(frame, 3, values);
    put(frame, 4, state[NEXT]);
    set(NEXT, frame);
}

static word look_up(word symbol) {
    for (word pairs = state[ENVIRONMENT]; pairs != NIL; pairs = cdr(pairs))
        if (car(car(pairs)) == symbol) return cdr(car(pairs));
    return at(state[GLOBALS])[index_of(symbol)];
}

static word closure(word parameters, word body) {
    word made = allocate(3);
    put(made, 0, parameters);
    put(made, 1, body);
    put(made, 2, state[ENVIRONMENT]);
    return made + 1;
}

static void evaluate(void) {
    word code = state[CODE];
    if (is_symbol(code)) {
        give(look_up(code));
    } else if (!is_pair(code)) {
        give(code);
    } else if (car(code) == QUOTE) {
        give(car(cdr(code)));
    } else if (car(code) == LAMBDA) {
        give(closure(car(cdr(code)), car(cdr(cdr(code)))));
    } else if (car(code) == IF) {
        push(IF_FRAME, cdr(cdr(code)), NIL);
        set(CODE, car(cdr(code)));
    } else if (car(code) == DEFINE) {
        push(DEFINE_FRAME, car(cdr(code)), NIL);
        set(CODE, car(cdr(cdr(code))));
    } else {
        push(CALL_FRAME, cdr(code), NIL);
        set(CODE, car(code));
    }
}

/* The values of a call, the last first, and the function behind all of them. */
static void apply(word values) {
    word list = NIL;
    for (; values != NIL; values = cdr(values)) list = cons(car(values), list);
    word function = car(list), arguments = cdr(list);
    if (is_primitive(function)) {
        give(primitive(index_of(function), arguments));
        return;
    }
    if (!is_closure(function)) stop("a call of what is no function");
    word environment = at(function)[2];
    for (word names_left = at(function)[0]; names_left != NIL; names_left = cdr(names_left)) {
        environment = cons(cons(car(names_left), car(arguments)), environment);
        arguments = cdr(arguments);
    }
    go_on(at(function)[1], environment);
}

/* Hands the value to what is to be done with it. Answers whether anything was. */
static bool resume(void) {
    word frame = state[NEXT], rest = at(frame)[1], value = state[VALUE];
    int64_t kind = value_of(at(frame)[0]);
    if (kind == LAST_FRAME) return false;
    set(NEXT, at(frame)[4]);
    if (kind == IF_FRAME) {
        go_on(value != NIL ? car(rest) : car(cdr(rest)), at(frame)[2]);
    } else if (kind == DEFINE_FRAME) {
        put(state[GLOBALS], index_of(rest), value);
        give(rest);
    } else {
        word values = cons(value, at(frame)[3]);
        set(ENVIRONMENT, at(frame)[2]);
        if (rest == NIL) {
            apply(values);
        } else {
            push(CALL_FRAME, cdr(rest), values);
            go_on(car(rest), at(frame)[2]);
        }
    }
    return true;
}

/* ---- The collector, between instructions ---- */

static double longest_end, longest_full;
static uint64_t cycles, full_collections;

static double microseconds(void) {
    struct timespec now;
    clock_gettime(CLOCK_MONOTONIC, &now);
    return (double)now.tv_sec * 1e6 + (double)now.tv_nsec / 1e3;
}

static void collect_fully(void) {
    double start = microseconds();
    word gone = 0;
    mpheap_collect(&heap, &gone);
    mpheap_paced(&pace);
    full_collections++;
    if (microseconds() - start > longest_full) longest_full = microseconds() - start;
}

/* What an instruction allocates has room afterwards, a long string apart. */
static void make_room(void) {
    word count = 1;
    while (mpheap_free_pages(&heap) < RESERVE && count != 0) mpheap_sweep(&heap, &count);
    if (mpheap_free_pages(&heap) < RESERVE) collect_fully();
    if (mpheap_free_pages(&heap) < RESERVE) stop("out of memory");
}

static void safe_point(void) {
    double start = microseconds();
    word gone = 0;
    if (mpheap_step(&heap, &pace, allocated, &gone)) {
        cycles++;
        if (microseconds() - start > longest_end) longest_end = microseconds() - start;
    }
    allocated = 0;
    make_room();
    mpheap_tells_anew(&told);
}

static void run(word code) {
    set(NEXT, NIL);
    go_on(code, NIL);
    push(LAST_FRAME, NIL, NIL);
    for (word instructions = 1;; instructions++) {
        if (instructions % INSTRUCTIONS_A_STEP == 0) safe_point();
        if (!has_value) {
            evaluate();
        } else if (!resume()) {
            return;
        }
    }
}

static void open_heap(uint32_t pages) {
    word base = 0;
    if (mpheap_open_mapped(pages, &heap) != MPHEAP_OK || mpheap_attach(&heap, &me) != MPHEAP_OK) stop("no heap");
    mpheap_tells_anew(&told);
    pace = mpheap_pace_of(pages);
    if (mpheap_alloc_base(&heap, me, NEW, STATE_WORDS, &base) != MPHEAP_OK) stop("no room for the machine");
    mpheap_gput(&heap, me, STATE, NEW);
    state = at(base);
    set(GLOBALS, allocate(SYMBOLS));
    QUOTE = symbol("quote", 5);
    LAMBDA = symbol("lambda", 6);
    IF = symbol("if", 2);
    DEFINE = symbol("define", 6);
    for (int i = 0; i < PRIMITIVES; i++)
        put(state[GLOBALS], index_of(symbol(primitives[i], strlen(primitives[i]))), (word)1 << 61 | (word)i);
}

int main(int argc, char **argv) {
    static char program[TEXT];
    program[fread(program, 1, sizeof program - 1, stdin)] = 0;
    open_heap(argc > 1 ? (uint32_t)strtoul(argv[1], NULL, 10) : 256);
    text = program;
    for (skip_blanks(); *text != 0; skip_blanks()) {
        run(read_one());
        print(state[VALUE]);
        putchar('\n');
    }
    collect_fully();
    fprintf(stderr, "%llu cycles in small steps, the longest end %.0f us; %llu full collections, the longest %.0f us\n",
            (unsigned long long)cycles, longest_end, (unsigned long long)full_collections, longest_full);
    mpheap_close(&heap);
    for (int i = 0; i < name_count; i++) free(names[i]);
    return 0;
}
