/* Programs of large heaps for bdwgc's gc.h, of one source for bdwgc and for libmpgc:
 *
 *     large_programs gcbench | tree | strings | mixed
 *
 * prints the milliseconds, an answer that has to be the same over both, the longest request in microseconds, and the most memory of the
 * machine that the process had, in megabytes. */
#define STOPS
#define main small_programs
#include "programs.c"
#undef main
#include <sys/resource.h>

/* GCBench as it was published: trees of depth 4 to 16 beside one of depth 16 and an array of 500,000 numbers. */
static uint64_t published_gcbench(void)
{
    enum { STRETCH = 18, LASTING = 16, LEAST = 4, MOST = 16, NUMBERS = 500000 };
    uint64_t count = count_tree(make_tree(STRETCH));
    struct tree *lasting = ASK(sizeof *lasting);
    grow(LASTING, lasting);
    double *array = ASK_ATOMIC(NUMBERS * sizeof *array);
    for (int k = 0; k < NUMBERS / 2; k++) array[k] = 1.0 / (k + 1);
    for (int depth = LEAST; depth <= MOST; depth += 2) {
        for (int k = 0; k < 2 << (STRETCH - depth); k++) {
            struct tree *top = ASK(sizeof *top);
            grow(depth, top);
            count += count_tree(make_tree(depth)) + (top->left != NULL);
        }
    }
    return count + count_tree(lasting) + (array[999] == 1.0 / 1000);
}

/* A tree of 2 ^ 22 nodes, of which one in sixteen is made anew again and again. */
static uint64_t large_tree(void)
{
    enum { DEPTH = 21, ANEW = 4, TIMES = 32 };
    struct tree *top = make_tree(DEPTH);
    for (int k = 0; k < TIMES; k++) {
        struct tree *at = top;
        for (int level = 1; level < ANEW; level++) at = next_random() % 2 ? at->left : at->right;
        at->left = make_tree(DEPTH - ANEW);
    }
    return count_tree(top);
}

/* A table of a million texts, each of which is made anew once. */
static uint64_t million_strings(void)
{
    enum { TEXTS = 1000000 };
    char **table = ASK(TEXTS * sizeof *table);
    uint64_t sum = 0;
    for (int k = 0; k < 2 * TEXTS; k++) {
        char text[40];
        int length = snprintf(text, sizeof text, "the text of number %lu", (unsigned long)(next_random() % TEXTS));
        char **at = &table[(uint64_t)k * 7919 % TEXTS];
        if (*at) sum += strlen(*at);
        *at = ASK_ATOMIC((size_t)length + 1);
        memcpy(*at, text, (size_t)length + 1);
    }
    return sum;
}

/* A million objects of 16 to 2,048 bytes, 1 GiB in all, half of them without pointers; and then half as many made anew. */
static uint64_t mixed(void)
{
    enum { OBJECTS = 1000000, MOST = 2048 };
    uint64_t **objects = ASK(OBJECTS * sizeof *objects), sum = 0;
    for (uint64_t k = 0; k < OBJECTS * 3ul / 2; k++) {
        uint64_t at = k < OBJECTS ? k : next_random() % OBJECTS;
        size_t bytes = 16 + next_random() % (MOST - 15);
        int is_plain = at % 2;
        uint64_t *made = is_plain ? ASK_ATOMIC(bytes) : ASK(bytes);
        made[0] = is_plain ? k : (uint64_t)(uintptr_t)objects[at / 2];
        made[1] = k;
        objects[at] = made;
        sum += objects[next_random() % (at + 1)] != NULL;
    }
    return sum;
}

int main(int count, char **words)
{
    static const struct { const char *name; uint64_t (*run)(void); } all[] = {
        { "gcbench", published_gcbench }, { "tree", large_tree }, { "strings", million_strings }, { "mixed", mixed }
    };
    struct rusage used;
    GC_INIT();
    for (size_t k = 0; count > 1 && k < sizeof all / sizeof *all; k++) {
        if (strcmp(all[k].name, words[1]) != 0) continue;
        double start = now();
        uint64_t answer = all[k].run();
        double took = now() - start;
        getrusage(RUSAGE_SELF, &used);
        printf("%.0f %lu %.0f %ld\n", took / 1000, (unsigned long)answer, longest, used.ru_maxrss / 1024);
        return 0;
    }
    (void)small_programs;
    return 1;
}
