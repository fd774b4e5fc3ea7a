/* GCBench, scaled to a heap of 4 MB: binary trees built from the top and from the bottom, beside a tree and an array that
 * live long (after the benchmark of J. Ellis and P. Kovac in H. Boehm's form). gcbench [STRETCH LONG] takes the depths of the
 * first tree, which goes at once, and of the one that stays; the original has 18 and 16 for them.
 *
 * With -DBDWGC it is built over the Boehm-Demers-Weiser collector (-lgc), held to 4 MB too. Standard error tells the time. */
#define _POSIX_C_SOURCE 199309L
#include <stdbool.h>
#include <stdint.h>
#include <stdio.h>
#include <stdlib.h>
#include <time.h>

enum { PAGES = 1024, ARRAY = 16000, LEAST_DEPTH = 4, MOST_DEPTH = 12, TIMES = 8 };

typedef struct node {
    struct node *left, *right;
    int64_t i, j;
} node;

static void stop(const char *why) {
    fprintf(stderr, "gcbench: %s\n", why);
    exit(1);
}

#ifdef BDWGC
#include <gc.h>

static void open_heap(void) {
    GC_INIT();
    GC_set_max_heap_size((size_t)PAGES * 4096);
}

static void *checked(void *at) {
    if (at == NULL) stop("out of memory");
    return at;
}

static node *new_node(void) { return (node *)checked(GC_MALLOC(sizeof(node))); }
static double *new_array(void) { return (double *)checked(GC_MALLOC_ATOMIC(ARRAY * sizeof(double))); }
static void put(node **at, node *to) { *at = to; }
static void keep(node *n) { (void)n; }
static void let_go(void) {}
static unsigned long collections(void) { return (unsigned long)GC_get_gc_no(); }
static void close_heap(void) {}

#else
#include "mpheap.h"

enum { NEW = 0, KEEP = 1 };

static mpheap heap = MPHEAP_CLOSED;
static uint8_t me;

static void open_heap(void) {
    if (mpheap_open_mapped(PAGES, &heap) != MPHEAP_OK || mpheap_attach(&heap, &me) != MPHEAP_OK) stop("no heap");
}

static void collect(void) {
    uint64_t gone = 0;
    mpheap_collect(&heap, &gone);
    mpheap_written_all(&heap, PAGES);
}

static void *new_object(uint64_t words, bool is_pointer_free) {
    uint32_t (*alloc)(mpheap *, uint8_t, uint8_t, uint64_t, uint64_t *) = is_pointer_free ? mpheap_alloc_pointer_free_base : mpheap_alloc_base;
    uint64_t base = 0;
    uint32_t status = alloc(&heap, me, NEW, words, &base);
    if (status == MPHEAP_FULL) {
        collect();
        status = alloc(&heap, me, NEW, words, &base);
    }
    if (status != MPHEAP_OK) stop("out of memory");
    return (void *)(uintptr_t)base;
}

static node *new_node(void) { return (node *)new_object(sizeof(node) / MPHEAP_WORD_BYTES, false); }
static double *new_array(void) { return (double *)new_object(ARRAY, true); }

/* No cycle is ever marking here, and `collect` tells all words, so what is written by a pointer needs no telling. */
static void put(node **at, node *to) { *at = to; }

/* A node that only C knows goes on the root stack until it hangs on another. */
static void keep(node *n) {
    mpheap_set(&heap, me, KEEP, (uint64_t)(uintptr_t)n);
    if (mpheap_push(&heap, me, KEEP) != MPHEAP_OK) stop("the root stack is full");
}

static void let_go(void) {
    uint64_t word = 0;
    mpheap_pop(&heap, me, KEEP, &word);
}

static unsigned long collections(void) { return (unsigned long)mpheap_gc_no(&heap); }
static void close_heap(void) { mpheap_close(&heap); }
#endif

static double milliseconds(void) {
    struct timespec now;
    clock_gettime(CLOCK_PROCESS_CPUTIME_ID, &now);
    return (double)now.tv_sec * 1e3 + (double)now.tv_nsec / 1e6;
}

static int nodes_of(int depth) {
    return (1 << (depth + 1)) - 1;
}

/* From the top: each new node hangs on the tree at once. */
static void populate(int depth, node *n) {
    if (depth <= 0) return;
    put(&n->left, new_node());
    put(&n->right, new_node());
    populate(depth - 1, n->left);
    populate(depth - 1, n->right);
}

static node *tree_from_top(int depth) {
    node *tree = new_node();
    keep(tree);
    populate(depth, tree);
    let_go();
    return tree;
}

/* From the bottom: two trees, and then the node above them. */
static node *tree_from_bottom(int depth) {
    if (depth <= 0) return new_node();
    node *left = tree_from_bottom(depth - 1);
    keep(left);
    node *right = tree_from_bottom(depth - 1);
    keep(right);
    node *tree = new_node();
    put(&tree->left, left);
    put(&tree->right, right);
    let_go();
    let_go();
    return tree;
}

static long count(const node *n) {
    return n == NULL ? 0 : 1 + count(n->left) + count(n->right);
}

static long build_trees(int depth, int stretch) {
    int trees = TIMES * 2 * nodes_of(stretch) / nodes_of(depth);
    long nodes = 0;
    for (int k = 0; k < trees; k++) nodes += count(tree_from_top(depth));
    for (int k = 0; k < trees; k++) nodes += count(tree_from_bottom(depth));
    return nodes == 2L * trees * nodes_of(depth) ? trees : -1;
}

int main(int argc, char **argv) {
    int stretch = argc > 2 ? atoi(argv[1]) : 14, longest = argc > 2 ? atoi(argv[2]) : 13;
    open_heap();
    double start = milliseconds();
    printf("stretch tree: %ld nodes\n", count(tree_from_bottom(stretch)));
    node *tree = tree_from_top(longest);
    keep(tree);
    double *array = new_array();
    keep((node *)(void *)array);
    for (int i = 1; i < ARRAY; i++) array[i] = 1.0 / i;
    for (int depth = LEAST_DEPTH; depth <= MOST_DEPTH; depth += 2)
        printf("depth %d: %ld trees from the top and from the bottom\n", depth, build_trees(depth, stretch));
    printf("long-lived tree: %ld nodes, array %s\n", count(tree), array[1000] == 1.0 / 1000 ? "right" : "wrong");
    fprintf(stderr, "%.0f ms, %lu collections\n", milliseconds() - start, collections());
    close_heap();
    return 0;
}
