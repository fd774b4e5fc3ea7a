/* A graph of objects whose words C writes by pointers, beside cycles that mark in small steps. After every few hundred steps
 * each object that C still reaches is looked up and compared with what was written into it. Two of three cycles begin with the
 * marks of the last one. writes SEEDS tells each page before it is written; writes SEEDS untold tells nothing, and then reached objects have to be lost, or the test shows
 * nothing. */
#include "check.h"
#include "mpheap.h"
#include <stdlib.h>

enum { PAGES = 256, TOP = 64, STEPS = 30000, NODES = PAGES * 128, KEEP = 1, TOPS = 2 };

typedef struct node {
    uint64_t tag; /* no address of the heap */
    struct node *a, *b;
    uint64_t check;
} node;

static mpheap heap = MPHEAP_CLOSED;
static mpheap_told told = MPHEAP_TOLD;
static uint8_t me;
static node **top;
static bool tells = true;
static uint64_t state, made, lost, cycles, partial;

static uint64_t draw(uint64_t below) {
    state ^= state << 13;
    state ^= state >> 7;
    state ^= state << 17;
    return state % below;
}

static void put(void *at, uint64_t word) {
    if (tells) mpheap_before_write(&heap, &told, at);
    *(uint64_t *)at = word;
}

static void put_node(node **at, node *to) {
    put(at, (uint64_t)(uintptr_t)to);
}

static uint64_t check_of(uint64_t tag) {
    return (tag * 0x9e3779b97f4a7c15u) | (uint64_t)1 << 63;
}

static node *fresh(void) {
    uint64_t base = 0, gone = 0, tag = ++made | (uint64_t)1 << 62;
    uint32_t status = mpheap_alloc_base(&heap, me, 0, 4, &base);
    if (status == MPHEAP_FULL) {
        mpheap_collect(&heap, &gone);
        mpheap_tells_anew(&told);
        status = mpheap_alloc_base(&heap, me, 0, 4, &base);
    }
    if (status != MPHEAP_OK) exit(2);
    node *n = (node *)(uintptr_t)base;
    put(&n->tag, tag);
    put(&n->check, check_of(tag));
    return n;
}

/* Some reached node, which a register keeps. */
static node *walk(uint64_t steps) {
    node *n = top[draw(TOP)];
    for (uint64_t i = 0; n != NULL && i < steps; i++) {
        node *next = draw(2) ? n->a : n->b;
        if (next == NULL) break;
        n = next;
    }
    mpheap_set(&heap, me, KEEP, (uint64_t)(uintptr_t)n);
    return n;
}

/* The graph changes at one place; in the last case what one node led to moves behind another. */
static void change(node *n, node *q) {
    uint64_t t = draw(TOP);
    switch (draw(4)) {
    case 0:
        if (draw(64)) put_node(&n->a, top[t]);
        put_node(&top[t], n);
        break;
    case 1:
        if (q == NULL) break;
        put_node(&n->a, q->a);
        put_node(&q->a, n);
        break;
    case 2:
        if (q == NULL) break;
        put_node(&n->b, q);
        put_node(&top[t], n);
        break;
    default:
        if (q == NULL) break;
        node *moved = q->a;
        put_node(&q->a, q->b);
        put_node(&q->b, NULL);
        put_node(&top[t], moved);
    }
}

static void collector_step(void) {
    uint64_t count = 0;
    if (!mpheap_is_marking(&heap)) {
        if (mpheap_free_pages(&heap) + mpheap_pending_pages(&heap) < PAGES * 3 / 4 || draw(256) == 0) {
            if (draw(3) == 0 || mpheap_begin_partial(&heap) != MPHEAP_OK) {
                mpheap_begin(&heap);
            } else {
                partial++;
            }
            mpheap_roots(&heap);
        } else if (draw(4) == 0) {
            mpheap_sweep(&heap, &count);
        }
    } else {
        mpheap_mark(&heap, 1 + draw(60), &count);
        if (draw(8) == 0) mpheap_retrace(&heap, &count);
        if (count == 0 && draw(16) == 0) {
            mpheap_finish(&heap, &count);
            cycles++;
        }
    }
    mpheap_tells_anew(&told);
}

static bool is_fine(node *n) {
    uint64_t base = 0, words = 0;
    return mpheap_kept_at(&heap, (uint64_t)(uintptr_t)n, &base, &words) == MPHEAP_OK && base == (uint64_t)(uintptr_t)n &&
           n->tag >> 62 == 1 && n->check == check_of(n->tag);
}

/* Looks at all that is reached, by marks of its own, and answers how many nodes that are. */
static uint64_t look_at_all(void) {
    static node *waiting[2 * NODES];
    static uint64_t seen[NODES], round;
    uint64_t count = 0, depth = 0;
    round++;
    for (int i = 0; i < TOP; i++)
        if (top[i] != NULL) waiting[depth++] = top[i];
    while (depth > 0) {
        node *n = waiting[--depth];
        uint64_t place = ((uint64_t)(uintptr_t)n - MPHEAP_FIRST_ADDRESS) / sizeof *n;
        if (place >= NODES || !is_fine(n)) {
            lost++;
            return count;
        }
        if (seen[place] == round) continue;
        seen[place] = round;
        count++;
        if (n->a != NULL) waiting[depth++] = n->a;
        if (n->b != NULL) waiting[depth++] = n->b;
    }
    return count;
}

static uint64_t run(uint64_t seed) {
    uint64_t base = 0, reached = 0;
    state = 88172645463325252u + seed * 7919;
    if (mpheap_open_mapped(PAGES, &heap) != MPHEAP_OK) exit(2);
    mpheap_tells_anew(&told);
    mpheap_attach(&heap, &me);
    if (mpheap_alloc_base(&heap, me, TOPS, TOP, &base) != MPHEAP_OK) exit(2);
    top = (node **)(uintptr_t)base;
    for (int i = 0; i < STEPS && lost == 0; i++) {
        node *n = fresh();
        change(n, walk(draw(12)));
        mpheap_set(&heap, me, 0, 0);
        mpheap_set(&heap, me, KEEP, 0);
        collector_step();
        if (i % 512 == 0) reached += look_at_all();
    }
    if (lost == 0) reached += look_at_all();
    mpheap_close(&heap);
    return reached;
}

int main(int argc, char **argv) {
    uint64_t reached = 0, seeds = argc > 1 ? strtoull(argv[1], NULL, 10) : 1;
    tells = argc < 3;
    for (uint64_t seed = 1; seed <= seeds && lost == 0; seed++) reached += run(seed);
    if (tells) {
        IS(lost, 0);
        IS(reached > 0 && cycles > seeds && partial > seeds, 1);
    } else {
        IS(lost > 0, 1);
    }
    printf("writes: %" PRIu64 " nodes made, %" PRIu64 " looked at, %" PRIu64 " cycles, %s\n", made, reached, cycles, tells ? "told" : "untold");
    return counts("writes");
}
