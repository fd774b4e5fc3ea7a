/* Runs a script through the calls of mpheap.h, and prints the replies that `mpheap run` prints: script PAGES < SCRIPT. Ends
 * with 2 and the number of the line at the first bad line. Every second allocation is one that answers the base, which is
 * compared with what the register then holds. */
#include "mpheap.h"
#include <inttypes.h>
#include <stdio.h>

enum { LONGEST = 255, MOST_WORDS = 6 };

/* The heap of scripts begins at `from` and that for C elsewhere: a word that lies a MiB before the one, in it or 4 GiB behind it stands as far
 * from the other. */
static uint64_t moved(uint64_t word, uint64_t from, uint64_t to) {
    const uint64_t before = (uint64_t)1 << 20, behind = (uint64_t)1 << 32;
    return word - (from - before) < before + behind ? word - from + to : word;
}
static const uint64_t first = 268435456;

typedef struct {
    const char *words[MOST_WORDS];
    int count;
    uint64_t numbers[MOST_WORDS]; /* of a mutator's line: what its words behind the call say */
    uint8_t slot;
} line;

/* What a call answers besides its status. */
typedef enum { NOTHING, WORD, COUNT, SLOT } answers;

typedef struct {
    const char *name;
    const char *takes; /* r: a register, g: a global, n: a number, w: a word, k: a kind of object */
    answers gives;
    uint32_t (*make)(mpheap *heap, const line *l, uint64_t *word);
} call;

static uint32_t allocations;

static uint32_t alloc_with_base(mpheap *heap, const line *l) {
    uint64_t base = 0, word = 1;
    uint8_t into = (uint8_t)l->numbers[0];
    uint32_t status = l->numbers[2] != 0 ? mpheap_alloc_pointer_free_base(heap, l->slot, into, l->numbers[1], &base)
                                         : mpheap_alloc_base(heap, l->slot, into, l->numbers[1], &base);
    if (status != MPHEAP_OK) return base == 0 ? status : 99;
    return mpheap_get(heap, l->slot, into, &word) == MPHEAP_OK && word == base ? MPHEAP_OK : 99;
}

static uint32_t make_alloc(mpheap *heap, const line *l, uint64_t *word) {
    uint8_t into = (uint8_t)l->numbers[0];
    (void)word;
    if (allocations++ % 2 == 1) return alloc_with_base(heap, l);
    return l->numbers[2] != 0 ? mpheap_alloc_pointer_free(heap, l->slot, into, l->numbers[1])
                              : mpheap_alloc(heap, l->slot, into, l->numbers[1]);
}

/* A call of a mutator, by the name of its export and what stands behind the slot. */
#define CALL(name, ...)                                                                \
    static uint32_t make_##name(mpheap *heap, const line *l, uint64_t *word) {         \
        (void)word;                                                                    \
        return mpheap_##name(heap, l->slot, __VA_ARGS__);                              \
    }
#define NUMBER(i) ((uint8_t)l->numbers[i])
CALL(set, NUMBER(0), l->numbers[1])
CALL(copy, NUMBER(0), NUMBER(1))
CALL(add, NUMBER(0), NUMBER(1), l->numbers[2])
CALL(sub, NUMBER(0), NUMBER(1), NUMBER(2))
CALL(get, NUMBER(0), word)
CALL(push, NUMBER(0))
CALL(pop, NUMBER(0), word)
CALL(load, NUMBER(0), NUMBER(1), l->numbers[2], word)
CALL(store, NUMBER(0), l->numbers[1], NUMBER(2))
CALL(free, NUMBER(0))
CALL(base, NUMBER(0), NUMBER(1), word)
CALL(size, NUMBER(0), word)
CALL(gget, NUMBER(0), NUMBER(1), word)
CALL(gput, NUMBER(0), NUMBER(1))
CALL(link, NUMBER(0), l->numbers[1], NUMBER(2))
CALL(unlink, NUMBER(0), l->numbers[1], word)

static uint32_t make_detach(mpheap *heap, const line *l, uint64_t *word) {
    (void)word;
    return mpheap_detach(heap, l->slot);
}

/* A call of the collector. */
#define STEP(name)                                                                     \
    static uint32_t gc_##name(mpheap *heap, const line *l, uint64_t *word) {           \
        (void)l;                                                                       \
        (void)word;                                                                    \
        return mpheap_##name
STEP(begin)(heap); }
STEP(begin_partial)(heap); }
STEP(roots)(heap); }
STEP(mark)(heap, l->numbers[0], word); }
STEP(retrace)(heap, word); }
STEP(finish)(heap, word); }
STEP(sweep)(heap, word); }
STEP(collect)(heap, word); }

static uint32_t gc_no(mpheap *heap, const line *l, uint64_t *word) {
    (void)l;
    *word = mpheap_gc_no(heap);
    return MPHEAP_OK;
}

static const call calls[] = {
    { "detach", "", NOTHING, make_detach }, { "set", "rw", NOTHING, make_set },
    { "copy", "rr", NOTHING, make_copy },   { "add", "rrn", NOTHING, make_add },
    { "sub", "rrr", NOTHING, make_sub },    { "get", "r", WORD, make_get },
    { "push", "r", NOTHING, make_push },    { "pop", "r", WORD, make_pop },
    { "alloc", "rnk", NOTHING, make_alloc }, { "load", "rrn", WORD, make_load },
    { "store", "rnr", NOTHING, make_store }, { "free", "r", NOTHING, make_free },
    { "base", "rr", WORD, make_base },      { "size", "r", COUNT, make_size },
    { "gget", "rg", WORD, make_gget },      { "gput", "gr", NOTHING, make_gput },
    { "link", "rnr", NOTHING, make_link },  { "unlink", "rn", COUNT, make_unlink },
    { NULL, NULL, NOTHING, NULL }
};

static const call steps[] = {
    { "begin", "", NOTHING, gc_begin }, { "partial", "", NOTHING, gc_begin_partial },
    { "roots", "", NOTHING, gc_roots },  { "mark", "n", COUNT, gc_mark },
    { "retrace", "", COUNT, gc_retrace }, { "finish", "", COUNT, gc_finish }, { "sweep", "", COUNT, gc_sweep },
    { "collect", "", COUNT, gc_collect }, { "no", "", COUNT, gc_no },         { NULL, NULL, NOTHING, NULL }
};

/* A number of at most `most`: 0, or digits that don't begin with 0. */
static bool reads_number(const char *text, uint64_t most, uint64_t *number) {
    uint64_t read = 0;
    if (*text == 0 || (text[0] == '0' && text[1] != 0)) return false;
    for (; *text != 0; text++) {
        if (*text < '0' || *text > '9') return false;
        uint64_t digit = (uint64_t)(*text - '0');
        if (read > (UINT64_MAX - digit) / 10) return false;
        read = read * 10 + digit;
    }
    *number = read;
    return read <= most;
}

/* A word of a line, as one of the letters of `takes`. */
static bool reads_word(const char *text, char as, uint64_t *number) {
    if (as == 'k') {
        *number = strcmp(text, "atomic") == 0;
        return *number == 1 || strcmp(text, "normal") == 0;
    }
    uint64_t most = as == 'r' ? MPHEAP_REGISTERS - 1 : as == 'g' ? MPHEAP_GLOBALS - 1 : UINT64_MAX;
    if (!reads_number(text, most, number)) return false;
    if (as == 'w') *number = moved(*number, first, MPHEAP_FIRST_ADDRESS);
    return true;
}

/* Cuts a line at its spaces. Two in a row, or one at an end, make an empty word, which is no word of any line. */
static bool cuts(char *text, line *l) {
    l->count = 0;
    for (char *word = text; word != NULL;) {
        char *end = strchr(word, ' ');
        if (l->count == MOST_WORDS) return false;
        if (end != NULL) *end++ = 0;
        l->words[l->count++] = word;
        word = end;
    }
    return true;
}

/* The call that a line makes, with its numbers, or null. */
static const call *call_of(line *l) {
    uint64_t slot = 0;
    bool is_gc = strcmp(l->words[0], "gc") == 0;
    if (l->count < 2 || (!is_gc && !reads_number(l->words[0], MPHEAP_SLOTS - 1, &slot))) return NULL;
    l->slot = (uint8_t)slot;
    for (const call *c = is_gc ? steps : calls; c->name != NULL; c++) {
        if (strcmp(c->name, l->words[1]) != 0) continue;
        int count = (int)strlen(c->takes);
        if (l->count != 2 + count) return NULL;
        for (int i = 0; i < count; i++)
            if (!reads_word(l->words[2 + i], c->takes[i], &l->numbers[i])) return NULL;
        return c;
    }
    return NULL;
}

static void print(uint32_t pages, uint32_t status, answers gives, uint64_t word) {
    static const char *const names[] = { "NoSlot", "Misaligned", "NoObject", "NotBase", "BadSize", "Full", "StackFull", "StackEmpty", "WrongPhase",
                                         "LinksFull", "NotPointerFree", "NeedsFull" };
    bool is_address = word - MPHEAP_FIRST_ADDRESS < (uint64_t)pages * MPHEAP_PAGE_BYTES;
    if (status >= 1 && status <= sizeof names / sizeof *names) {
        printf("refused %" PRIu32 " %s\n", status, names[status - 1]);
    } else if (status != MPHEAP_OK) {
        printf("status %" PRIu32 "\n", status);
    } else if (gives == NOTHING) {
        puts("ok");
    } else if (gives == WORD && is_address) {
        puts("ptr");
    } else {
        printf("%s%" PRIu64 "\n", gives == SLOT ? "mutator " : "", moved(word, MPHEAP_FIRST_ADDRESS, first));
    }
}

/* Runs a line, and answers whether it is one. */
static bool run(mpheap *heap, uint32_t pages, char *text) {
    line l;
    uint64_t word = 0;
    if (!cuts(text, &l)) return false;
    if (l.count == 1 && strcmp(l.words[0], "attach") == 0) {
        uint8_t slot = 0;
        uint32_t status = mpheap_attach(heap, &slot);
        print(pages, status, SLOT, slot);
        return true;
    }
    const call *made = call_of(&l);
    if (made == NULL) return false;
    uint32_t status = made->make(heap, &l, &word);
    print(pages, status, made->gives, word);
    return true;
}

/* The next line without its newline, cut where it is longer than a line may be. Answers its length, or -1 at the end. */
static int next_line(char *text) {
    int length = 0, read;
    while ((read = getchar()) != EOF && read != '\n') {
        if (length == LONGEST + 1) return length;
        text[length++] = (char)(read == 0 ? '\1' : read);
    }
    text[length] = 0;
    return read == EOF && length == 0 ? -1 : length;
}

int main(int argc, char **argv) {
    static char text[LONGEST + 2];
    mpheap heap = MPHEAP_CLOSED;
    uint64_t pages = 0;
    int length, number = 1, status = 0;
    if (argc != 2 || !reads_number(argv[1], MPHEAP_MAX_PAGES, &pages)) return 3;
    if (mpheap_open((uint32_t)pages, &heap) != MPHEAP_OK) return 3;
    while (status == 0 && (length = next_line(text)) >= 0) {
        if (length > LONGEST || !run(&heap, (uint32_t)pages, text)) {
            fprintf(stderr, "bad line %d\n", number);
            status = 2;
        }
        number++;
    }
    mpheap_close(&heap);
    return status;
}
