/* Six programs for bdwgc's gc.h: one source for bdwgc and for libmpgc.
 *
 *     programs NAME ROUNDS [NODES EVERY]
 *
 * (the last two for `stores` alone) prints the milliseconds of all rounds, an answer that has to be the same over both, and the peak of the heap in kilobytes. With
 * -DSTOPS each request is timed instead, and the longest one is printed in microseconds: in incremental mode, steps and all. */
#define _GNU_SOURCE
#include <stdint.h>
#include <stdio.h>
#include <stdlib.h>
#include <string.h>
#include <time.h>
#include "gc.h"

#ifndef CLOCK
#define CLOCK CLOCK_PROCESS_CPUTIME_ID /* of the processor: others on the machine don't count */
#endif
static double now(void)
{
    struct timespec time;
    clock_gettime(CLOCK, &time);
    return (double)time.tv_sec * 1e6 + (double)time.tv_nsec / 1e3;
}

static _Thread_local size_t peak;
static _Thread_local double longest;

#ifdef STOPS
static void *timed(void *(*request)(size_t), size_t bytes)
{
    double start = now();
    void *object = request(bytes);
    double took = now() - start;
    if (took > longest) longest = took;
    return object;
}
#define ASK(n) timed(GC_malloc, n)
#define ASK_ATOMIC(n) timed(GC_malloc_atomic, n)
#else
#define ASK(n) GC_malloc(n)
#define ASK_ATOMIC(n) GC_malloc_atomic(n)
#endif

static _Thread_local uint64_t state = 88172645463325252ull;
static uint64_t next_random(void)
{
    state ^= state << 13;
    state ^= state >> 7;
    state ^= state << 17;
    return state;
}

static void note_peak(void)
{
    if (GC_get_heap_size() > peak) peak = GC_get_heap_size();
}

/* GCBench, scaled to a heap of some megabytes: trees from the top and from the bottom, beside a tree and an array that live long. */
struct tree { struct tree *left, *right; int i, j; };

static void grow(int depth, struct tree *at)
{
    if (depth <= 0) return;
    at->left = ASK(sizeof *at);
    at->right = ASK(sizeof *at);
    grow(depth - 1, at->left);
    grow(depth - 1, at->right);
}
static struct tree *make_tree(int depth)
{
    struct tree *at = ASK(sizeof *at);
    if (depth <= 0) return at;
    at->left = make_tree(depth - 1);
    at->right = make_tree(depth - 1);
    return at;
}
static uint64_t count_tree(const struct tree *at) { return at ? 1 + count_tree(at->left) + count_tree(at->right) : 0; }

static uint64_t gcbench(void)
{
    enum { LONG = 13, LEAST = 4, MOST = 12 };
    uint64_t count = count_tree(make_tree(14));
    struct tree *lasting = ASK(sizeof *lasting);
    grow(LONG, lasting);
    double *array = ASK_ATOMIC(10000 * sizeof *array);
    for (int k = 0; k < 10000; k++) array[k] = 1.0 / (k + 1);
    for (int depth = LEAST; depth <= MOST; depth += 2) {
        for (int k = 0; k < 4 << (MOST - depth); k++) {
            struct tree *top = ASK(sizeof *top);
            grow(depth, top);
            count += count_tree(make_tree(depth)) + (top->left != NULL);
        }
        note_peak();
    }
    return count + count_tree(lasting) + (array[999] == 1.0 / 1000);
}

/* A search tree of random keys, which come and go. */
struct pair { struct pair *left, *right; uint64_t key; };

static struct pair *insert(struct pair *at, uint64_t key)
{
    struct pair *next = ASK(sizeof *next);
    if (!at) {
        next->key = key;
        return next;
    }
    *next = *at; /* a new path: the old tree stays as it was */
    if (key < at->key)
        next->left = insert(at->left, key);
    else if (key > at->key)
        next->right = insert(at->right, key);
    return next;
}

static uint64_t tree(void)
{
    struct pair *top = NULL;
    uint64_t sum = 0;
    for (int k = 0; k < 10000; k++) top = insert(top, next_random() % 20000);
    note_peak();
    for (struct pair *at = top; at; at = at->left) sum += at->key;
    return sum;
}

/* A list of numbers, sorted by merging into new lists. */
struct link { struct link *next; uint64_t number; };

static struct link *cons(uint64_t number, struct link *next)
{
    struct link *at = ASK(sizeof *at);
    at->number = number;
    at->next = next;
    return at;
}
static struct link *merge(struct link *a, struct link *b)
{
    struct link *first = NULL, **last = &first;
    while (a || b) {
        struct link **from = !b || (a && a->number <= b->number) ? &a : &b;
        *last = cons((*from)->number, NULL);
        last = &(*last)->next;
        *from = (*from)->next;
    }
    return first;
}
static struct link *sort(struct link *list, int count)
{
    if (count < 2) return count ? cons(list->number, NULL) : NULL;
    struct link *half = list;
    for (int k = 0; k < count / 2; k++) half = half->next;
    return merge(sort(list, count / 2), sort(half, count - count / 2));
}

static uint64_t list(void)
{
    struct link *numbers = NULL;
    for (int k = 0; k < 8000; k++) numbers = cons(next_random() % 100000, numbers);
    struct link *sorted = sort(numbers, 8000);
    note_peak();
    uint64_t sum = 0, place = 0;
    for (struct link *at = sorted; at; at = at->next) sum += at->number * ++place;
    return sum;
}

/* A hash table of texts, whose entries are replaced. */
struct entry { struct entry *next; char *key; uint64_t value; };

static uint64_t table(void)
{
    enum { SLOTS = 2048 };
    struct entry **slots = ASK(SLOTS * sizeof *slots);
    uint64_t sum = 0;
    for (int k = 0; k < 60000; k++) {
        char text[32];
        uint64_t key = next_random() % 6000;
        int length = snprintf(text, sizeof text, "key %lu", (unsigned long)key);
        struct entry **at = &slots[key % SLOTS];
        while (*at && strcmp((*at)->key, text) != 0) at = &(*at)->next;
        struct entry *entry = ASK(sizeof *entry);
        entry->key = ASK_ATOMIC((size_t)length + 1);
        memcpy(entry->key, text, (size_t)length + 1);
        entry->value = *at ? (*at)->value + key : key;
        entry->next = *at ? (*at)->next : NULL;
        *at = entry;
        sum += entry->value;
    }
    note_peak();
    return sum;
}

/* Texts that grow piece by piece, as a builder of strings makes them. */
static uint64_t strings(void)
{
    char **kept = ASK(200 * sizeof *kept);
    uint64_t sum = 0;
    for (int k = 0; k < 2000; k++) {
        size_t room = 16, length = 0, wanted = next_random() % 3000;
        char *text = ASK_ATOMIC(room);
        while (length < wanted) {
            if (length + 9 > room) {
                char *larger = ASK_ATOMIC(room *= 2);
                memcpy(larger, text, length);
                text = larger;
            }
            memcpy(text + length, "a piece ", 8);
            length += 8;
        }
        text[length] = 0;
        kept[k % 200] = text;
        sum += strlen(kept[(k * 7) % 200] ? kept[(k * 7) % 200] : "");
    }
    note_peak();
    return sum;
}

/* Random stores over a heap of nodes that all live: each step has one node point to another one, and every so many steps it asks for an
 * object that a node keeps. */
struct node { struct node *to, *own; uint64_t number; };
enum { CHUNK = 1000, STEPS = 3000000 };
static uint64_t nodes, every;

static struct node **place_of(struct node ***chunks, uint64_t k) { return &chunks[k / CHUNK][k % CHUNK]; }

static struct node *make_node(uint64_t number)
{
    struct node *made = ASK(sizeof *made);
    made->number = number;
    return made;
}

static uint64_t stores(void)
{
    uint64_t sum = 0;
    struct node ***chunks = ASK((nodes / CHUNK + 1) * sizeof *chunks);
    for (uint64_t k = 0; k < nodes; k++) {
        if (k % CHUNK == 0) chunks[k / CHUNK] = ASK(CHUNK * sizeof **chunks);
        *place_of(chunks, k) = make_node(k);
    }
    for (uint64_t k = 0; k < STEPS; k++) {
        struct node *at = *place_of(chunks, next_random() % nodes);
        at->to = *place_of(chunks, next_random() % nodes);
        if (k % every == 0) at->own = make_node(k);
        sum += at->to->number + (at->own ? at->own->number : 0);
    }
    note_peak();
    return sum;
}

int main(int count, char **texts)
{
    static const struct { const char *name; uint64_t (*run)(void); } programs[] = {
        { "gcbench", gcbench }, { "tree", tree }, { "list", list }, { "table", table }, { "strings", strings },
        { "stores", stores }
    };
    if (count < 3) return 1;
    nodes = count > 3 ? strtoull(texts[3], NULL, 10) : 40000;
    every = count > 4 ? strtoull(texts[4], NULL, 10) : 1;
    GC_INIT();
    for (size_t k = 0; k < sizeof programs / sizeof *programs; k++) {
        if (strcmp(programs[k].name, texts[1]) != 0) continue;
        uint64_t answer = 0;
        double start = now();
        for (int round = atoi(texts[2]); round > 0; round--) answer += programs[k].run();
        printf("%.1f %lu %zu %.0f\n", (now() - start) / 1000, (unsigned long)answer, peak / 1024, longest);
    }
    return 0;
}
