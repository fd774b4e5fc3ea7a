/* A million random operations on a graph of objects, with a shadow of all of it in malloc's memory. After each collection, and at the end,
 * every object that the shadow reaches is compared: it is there, at its address, with its words and bytes.
 *
 *     shadow SEED OPERATIONS
 *
 * The graph's roots lie in static data, on the stack, in thread-local data, in an added range and in an uncollectable object; its
 * pointers are to the beginning, into the middle, and past the end. */
#define _GNU_SOURCE
#include <stdbool.h>
#include <stdint.h>
#include "gc.h"
#include "check.h"

enum { PLACES = 5, EACH = 24, ROOTS = PLACES * EACH, MOST = 60000, WORDS_CAP = 90000, LINKS = 12 };

/* What an object should be. A node has its number, the count of its links, and these; a text has bytes that follow from its number. */
struct shadow {
    char *address;
    uint32_t bytes, links;
    bool is_text, is_used, is_reached;
    struct { uint32_t to, offset; } *link;
};

static struct shadow shadows[MOST];
static uint32_t unused[MOST], unused_count;
static struct { uint32_t to, offset; } root_shadow[ROOTS];
static void **places[PLACES];
static void *static_roots[EACH];
static _Thread_local void *thread_roots[EACH];
static uint64_t state, compared, comparisons;
static size_t reached_words;

static uint64_t next_random(void)
{
    state ^= state << 13;
    state ^= state >> 7;
    state ^= state << 17;
    return state * 0x2545F4914F6CDD1Dull;
}
static uint32_t below(uint32_t count) { return (uint32_t)((next_random() >> 33) % count); }

static uint64_t *words_of(const struct shadow *s) { return (uint64_t *)(void *)s->address; }
static unsigned char byte_of(uint32_t number, uint32_t k) { return (unsigned char)(number * 31 + k * 7 + 1); }

static void lost(uint32_t number, const char *what)
{
    printf("failed: object %u of %u bytes, %s\n", number, shadows[number].bytes, what);
    exit(1);
}

static void compare(uint32_t number)
{
    struct shadow *s = &shadows[number];
    if (GC_base(s->address) != s->address) lost(number, "is gone");
    if (GC_size(s->address) < s->bytes) lost(number, "is smaller");
    if (s->is_text) {
        for (uint32_t k = 0; k < s->bytes; k++)
            if ((unsigned char)s->address[k] != byte_of(number, k)) lost(number, "has another byte");
        return;
    }
    uint64_t *words = words_of(s);
    if (words[0] != number || words[1] != s->links) lost(number, "has another head");
    for (uint32_t k = 0; k < s->links; k++) {
        uint32_t to = s->link[k].to;
        uint64_t wanted = to == MOST ? 0 : (uint64_t)(uintptr_t)shadows[to].address + s->link[k].offset;
        if (words[2 + k] != wanted) lost(number, "has another link");
    }
}

static uint32_t pending[MOST], pending_count;

static void reach(uint32_t number)
{
    if (number == MOST || shadows[number].is_reached) return;
    shadows[number].is_reached = true;
    pending[pending_count++] = number;
}

/* All that is reached is compared; shadows of the rest are forgotten. */
static void compare_all(void)
{
    reached_words = 0;
    for (uint32_t k = 0; k < ROOTS; k++) reach(root_shadow[k].to);
    while (pending_count > 0) {
        uint32_t number = pending[--pending_count];
        compare(number);
        compared++;
        reached_words += shadows[number].bytes / 8;
        for (uint32_t k = 0; k < shadows[number].links; k++) reach(shadows[number].link[k].to);
    }
    for (uint32_t number = 0; number < MOST; number++) {
        struct shadow *s = &shadows[number];
        if (s->is_used && !s->is_reached) {
            free(s->link);
            memset(s, 0, sizeof *s);
            unused[unused_count++] = number;
        }
        s->is_reached = false;
    }
    comparisons++;
}

static void set_root(uint32_t root, uint32_t to, uint32_t offset)
{
    root_shadow[root].to = to;
    root_shadow[root].offset = offset;
    places[root / EACH][root % EACH] = to == MOST ? NULL : shadows[to].address + offset;
}

/* A reached object: some steps from some root. MOST, if that has none. */
static uint32_t any_reached(void)
{
    uint32_t at = root_shadow[below(ROOTS)].to;
    for (uint32_t steps = below(12); at != MOST && steps > 0; steps--) {
        struct shadow *s = &shadows[at];
        if (s->links == 0) break;
        uint32_t to = s->link[below(s->links)].to;
        if (to == MOST) break;
        at = to;
    }
    return at;
}

/* A reached node that has links, if one is soon found. */
static uint32_t any_holder(void)
{
    uint32_t at = root_shadow[below(ROOTS)].to;
    for (uint32_t steps = below(30); at != MOST && shadows[at].links > 0 && steps > 0; steps--) {
        uint32_t to = shadows[at].link[below(shadows[at].links)].to;
        if (to != MOST && shadows[to].links > 0) at = to;
    }
    return at != MOST && shadows[at].links > 0 ? at : MOST;
}

static uint32_t any_offset(uint32_t to)
{
    uint32_t way = below(8);
    if (to == MOST || way > 2) return 0;
    return way == 0 ? shadows[to].bytes : below(shadows[to].bytes + 1);
}

static void set_link(uint32_t number, uint32_t k)
{
    struct shadow *s = &shadows[number];
    uint32_t to = below(6) == 0 ? MOST : any_reached();
    if (to != MOST && shadows[to].is_text) to = MOST; /* a text has one name at most, which moves */
    uint32_t offset = any_offset(to);
    s->link[k].to = to;
    s->link[k].offset = offset;
    words_of(s)[2 + k] = to == MOST ? 0 : (uint64_t)(uintptr_t)shadows[to].address + offset;
}

static uint32_t any_links(void) { return below(1000) == 0 ? 300 + below(500) : below(LINKS); }

static uint32_t new_node(void)
{
    uint32_t number = unused[--unused_count];
    struct shadow *s = &shadows[number];
    s->links = any_links();
    s->bytes = 16 + 8 * s->links;
    s->link = calloc(s->links + 1, sizeof *s->link);
    s->address = GC_malloc(s->bytes);
    if (!s->address) lost(number, "wasn't allocated");
    s->is_used = true;
    words_of(s)[0] = number;
    words_of(s)[1] = s->links;
    for (uint32_t k = 0; k < s->links; k++) {
        if (words_of(s)[2 + k] != 0) lost(number, "wasn't clear");
        s->link[k].to = MOST;
    }
    for (uint32_t k = 0; k < s->links && k < LINKS; k++) set_link(number, k);
    return number;
}

static uint32_t new_text(void)
{
    uint32_t number = unused[--unused_count];
    struct shadow *s = &shadows[number];
    s->bytes = 1 + (below(200) == 0 ? below(9000) : below(150));
    s->address = GC_malloc_atomic(s->bytes);
    if (!s->address) lost(number, "wasn't allocated");
    s->is_text = s->is_used = true;
    for (uint32_t k = 0; k < s->bytes; k++) s->address[k] = (char)byte_of(number, k);
    return number;
}

/* An object that nobody else names grows or shrinks, and keeps its words. */
static void resize(uint32_t number)
{
    struct shadow *s = &shadows[number];
    uint32_t old = s->bytes;
    if (s->is_text) {
        s->bytes = 1 + below(2 * old);
        s->address = GC_realloc(s->address, s->bytes);
        for (uint32_t k = old; k < s->bytes; k++) s->address[k] = (char)byte_of(number, k);
        return;
    }
    uint32_t links = s->links + below(20);
    s->bytes = 16 + 8 * links;
    s->address = GC_realloc(s->address, s->bytes);
    s->link = realloc(s->link, (links + 1) * sizeof *s->link);
    for (uint32_t k = s->links; k < links; k++) {
        if (words_of(s)[2 + k] != 0) lost(number, "grew, and wasn't clear");
        s->link[k].to = MOST;
        s->link[k].offset = 0;
    }
    words_of(s)[1] = s->links = links;
}

/* Where a new object is named: by a root, or by a link of a reached node. */
static void name(uint32_t number)
{
    uint32_t holder = any_holder();
    if (below(3) == 0 || holder == MOST) {
        set_root(below(ROOTS), number, any_offset(number));
        return;
    }
    uint32_t k = below(shadows[holder].links), offset = any_offset(number);
    shadows[holder].link[k].to = number;
    shadows[holder].link[k].offset = offset;
    words_of(&shadows[holder])[2 + k] = (uint64_t)(uintptr_t)shadows[number].address + offset;
}

/* What a marker hates: a link goes from one node to another, and is gone from the first. */
static void move_link(void)
{
    uint32_t from = any_holder(), to = any_holder();
    if (from == MOST || to == MOST) return;
    uint32_t j = below(shadows[from].links), k = below(shadows[to].links);
    if (shadows[from].link[j].to == MOST) return;
    shadows[to].link[k].to = shadows[from].link[j].to;
    shadows[to].link[k].offset = shadows[from].link[j].offset;
    words_of(&shadows[to])[2 + k] = words_of(&shadows[from])[2 + j];
    if (from == to && j == k) return;
    shadows[from].link[j].to = MOST;
    words_of(&shadows[from])[2 + j] = 0;
}

static void garbage(void)
{
    uint64_t *p = below(2) ? GC_malloc(8 * (1 + below(20))) : GC_malloc_atomic(8 * (1 + below(20)));
    p[0] = 0x1111;
    if (below(4) == 0) GC_free(p);
}

/* Roots go, all but a few in the half of the cases, so that the graph stays small. */
static void forget_most(void)
{
    uint32_t few = below(2) * 5;
    for (uint32_t k = few; k < ROOTS; k++) set_root(k, MOST, 0);
}

static void operate(void)
{
    uint32_t number;
    switch (below(18)) {
    case 0: case 1: case 2: case 3:
        number = new_node();
        if (below(8) == 0) resize(number);
        name(number);
        break;
    case 4: case 5:
        number = new_text();
        if (below(8) == 0) resize(number);
        name(number);
        break;
    case 6: case 7:
        garbage();
        break;
    case 8:
        if (below(20) == 0) set_root(below(ROOTS), MOST, 0);
        break;
    case 9: case 10: case 11:
        move_link();
        break;
    default:
        number = any_holder();
        if (number != MOST) set_link(number, below(shadows[number].links));
    }
}

/* What calls and fault handlers have left on the stack would hide an object that the layer has lost. */
static __attribute__((noinline)) void clear_stack(void)
{
    char old[10000];
    explicit_bzero(old, sizeof old);
}

int main(int count, char **texts)
{
    void *stack_roots[EACH];
    state = count > 1 ? strtoull(texts[1], NULL, 10) * 2 + 1 : 1;
    long operations = count > 2 ? atol(texts[2]) : 1000000;
    GC_INIT();
    if (getenv("INCREMENTAL")) GC_enable_incremental();
    memset(stack_roots, 0, sizeof stack_roots);
    void **added = calloc(EACH, sizeof *added);
    GC_add_roots(added, added + EACH);
    places[0] = static_roots;
    places[1] = stack_roots;
    places[2] = thread_roots;
    places[3] = added;
    places[4] = (void **)GC_malloc_uncollectable(EACH * sizeof(void *));
    for (uint32_t k = 0; k < ROOTS; k++) root_shadow[k].to = MOST;
    for (uint32_t k = 0; k < MOST; k++) unused[unused_count++] = k;
    GC_word seen = GC_get_gc_no();
    for (long k = 0; k < operations; k++) {
        operate();
        clear_stack();
        if (k % 100 == 0) GC_start_incremental_collection(); /* which does nothing in full collections */
        if (k % (operations / 20) == operations / 20 - 1) GC_gcollect();
        if (GC_get_gc_no() == seen && unused_count > 100) continue;
        seen = GC_get_gc_no();
        compare_all();
        if (reached_words > WORDS_CAP) forget_most();
    }
    compare_all();
    printf("%ld operations, %lu collections, %lu comparisons of %lu objects\n", operations, (unsigned long)GC_get_gc_no(),
           (unsigned long)comparisons, (unsigned long)compared);
    return comparisons > 4 && compared > 10000 ? 0 : 1;
}
