/* Full collections by several threads that mark: what lives is the same as with one, is whole, and what doesn't goes.
 *
 *     marking [ROUNDS]
 *
 * Each of four threads keeps graphs of its own with a shadow of them in malloc's memory: a tree, a long list, an array of many small
 * objects, an array of arrays, and typed objects. Each round some of that is made anew, and all is collected. What a collection took is told by a
 * disappearing link to each object that was let go, and to some that stay. What was seen is counted in the file SAYS: it has to be the same
 * with each number of markers. REFUSED: threads are, so there may be fewer. */
#define _GNU_SOURCE
#define GC_THREADS
#include <pthread.h>
#include <stdint.h>
#include <sys/resource.h>
#include "gc.h"
#include <gc/gc_typed.h>
#include "check.h"
#include "drawn.h"
#include "watch.h"

void GC_stop_world_external(void);
void GC_start_world_external(void);

enum { THREADS = 4, DEPTH = 13, LIST = 20000, ARRAY = 8000, ROWS = 60, COLUMNS = 300, TYPED = 3000, LINKS = 200 };

struct tree { struct tree *left, *right; uint64_t number; };
struct node { struct node *next; uint64_t number; };
struct leaf { uint64_t number, rest[3]; };
/* Of a typed object the first word alone is read. */
struct typed { struct leaf *strong, *weak; uint64_t number; };
struct own {
    struct tree *tree;
    struct node *list;
    struct leaf **array, ***rows;
    struct typed **typed;
    uint64_t state, seen;
};

static GC_descr first_word;
static _Atomic uint64_t lost;
static uint64_t sums[THREADS];
static int rounds;
static void *links[THREADS][LINKS];

static uint64_t draw(struct own *own, uint64_t below) { return drawn(&own->state) % below; }

static void *ask(size_t bytes)
{
    void *at = GC_malloc(bytes);
    if (!at) abort();
    return at;
}

static struct tree *grow(int depth, uint64_t number)
{
    struct tree *tree = ask(sizeof *tree);
    tree->number = number;
    if (depth == 0) return tree;
    tree->left = grow(depth - 1, 2 * number);
    tree->right = grow(depth - 1, 2 * number + 1);
    return tree;
}

static struct leaf *new_leaf(uint64_t number)
{
    struct leaf *leaf = ask(sizeof *leaf);
    leaf->number = ~number;
    return leaf;
}

static struct node *new_list(uint64_t number)
{
    struct node *list = NULL;
    for (uint64_t k = 0; k < LIST; k++) {
        struct node *node = ask(sizeof *node);
        node->next = list;
        node->number = number + k;
        list = node;
    }
    return list;
}

static struct typed *new_typed(uint64_t number)
{
    struct typed *typed = GC_malloc_explicitly_typed(sizeof *typed, first_word);
    typed->strong = new_leaf(number);
    typed->weak = NULL;
    typed->number = number;
    return typed;
}

/* ---- Looking at it ---- */

static void must(struct own *own, int is_so)
{
    own->seen++;
    if (!is_so) lost++;
}

static void look_at_tree(struct own *own, const struct tree *tree, int depth, uint64_t number)
{
    must(own, tree->number == number && !tree->left == (depth == 0) && !tree->right == (depth == 0));
    if (depth == 0) return;
    look_at_tree(own, tree->left, depth - 1, 2 * number);
    look_at_tree(own, tree->right, depth - 1, 2 * number + 1);
}

static void look_at_all(struct own *own)
{
    uint64_t k = LIST;
    look_at_tree(own, own->tree, DEPTH, 1);
    for (const struct node *node = own->list; node; node = node->next) must(own, k-- > 0 && node->number == 7 + k);
    must(own, k == 0);
    for (k = 0; k < ARRAY; k++) must(own, own->array[k]->number == ~k);
    for (k = 0; k < ROWS * COLUMNS; k++) must(own, own->rows[k / COLUMNS][k % COLUMNS]->number == ~k);
    for (k = 0; k < TYPED; k++) must(own, own->typed[k]->number == k && own->typed[k]->strong->number == ~k);
}

/* ---- Changing it ---- */

static void make_all(struct own *own)
{
    own->tree = grow(DEPTH, 1);
    own->list = new_list(7);
    own->array = ask(ARRAY * sizeof *own->array);
    for (uint64_t k = 0; k < ARRAY; k++) own->array[k] = new_leaf(k);
    own->rows = ask(ROWS * sizeof *own->rows);
    for (uint64_t k = 0; k < ROWS; k++) own->rows[k] = ask(COLUMNS * sizeof **own->rows);
    for (uint64_t k = 0; k < ROWS * COLUMNS; k++) own->rows[k / COLUMNS][k % COLUMNS] = new_leaf(k);
    own->typed = ask(TYPED * sizeof *own->typed);
    for (uint64_t k = 0; k < TYPED; k++) own->typed[k] = new_typed(k);
}

static void renew_branch(struct own *own)
{
    struct tree *at = own->tree;
    uint64_t number = 1;
    int depth = DEPTH;
    for (; depth > 7; depth--) {
        uint64_t right = draw(own, 2);
        if (depth == 8 && right) at->right = grow(7, 2 * number + 1);
        if (depth == 8 && !right) at->left = grow(7, 2 * number);
        at = right ? at->right : at->left;
        number = 2 * number + right;
    }
}

static void change(struct own *own)
{
    renew_branch(own);
    if (draw(own, 3) == 0) own->list = new_list(7);
    for (int k = 0; k < 500; k++) {
        uint64_t at = draw(own, ARRAY), cell = draw(own, ROWS * COLUMNS), which = draw(own, TYPED);
        own->array[at] = new_leaf(at);
        own->rows[cell / COLUMNS][cell % COLUMNS] = new_leaf(cell);
        own->typed[which] = new_typed(which);
    }
}

/* An object that only a link names goes, and so does one that a word names which isn't read. */
__attribute__((noinline)) static void let_go(struct own *own, void **own_links)
{
    for (int k = 0; k < LINKS; k++) {
        struct leaf *leaf = k % 2 ? own->array[draw(own, ARRAY)] : new_leaf(draw(own, ARRAY));
        own_links[k] = (void *)~(uintptr_t)leaf;
        GC_general_register_disappearing_link(&own_links[k], leaf);
        if (k % 4 == 0) own->typed[draw(own, TYPED)]->weak = leaf;
    }
    for (uint64_t k = 0; k < TYPED; k++) own->typed[k]->weak = (struct leaf *)~(uintptr_t)own->typed[k]->weak;
    for (uint64_t k = 0; k < TYPED; k++) own->typed[k]->weak = (struct leaf *)~(uintptr_t)own->typed[k]->weak;
}

__attribute__((noinline)) static void clear_stack(void)
{
    volatile char room[8000];
    memset((void *)(uintptr_t)room, 0, sizeof room);
}

static unsigned still_there(void **own_links)
{
    unsigned count = 0;
    for (int k = 0; k < LINKS; k++) {
        count += own_links[k] != NULL;
        if (k % 2 && !own_links[k]) lost++;
        GC_unregister_disappearing_link(&own_links[k]);
        own_links[k] = NULL;
    }
    return count;
}

static void *work(void *data)
{
    uintptr_t which = (uintptr_t)data;
    struct own own = { .state = which + 88172645463325252u };
    unsigned kept = 0;
    make_all(&own);
    for (int round = 0; round < rounds && lost == 0; round++) {
        change(&own);
        let_go(&own, links[which]);
        clear_stack();
        GC_gcollect();
        look_at_all(&own);
        kept += still_there(links[which]);
    }
    /* A word left on the stack may keep some of those that were let go, and not many. */
    if (kept > (unsigned)rounds * LINKS / 2 + 20 + (unsigned)rounds) lost++;
    sums[which] = own.seen;
    return data;
}

/* ---- What else has to hold ---- */

/* A child has markers of its own. */
static int in_child(void)
{
    struct own own = { .state = 5 };
    make_all(&own);
    for (int k = 0; k < 3; k++) {
        change(&own);
        GC_gcollect();
        look_at_all(&own);
    }
    return lost != 0;
}

/* A child answers 0, and doesn't hang. */
static int ends(int (*body)(void))
{
    int status = 0;
    fflush(stdout);
    pid_t child = fork(), seen = 0;
    if (child == 0) _exit(body());
    struct watched one = watched(child);
    while ((seen = waitpid(child, &status, WNOHANG)) == 0 && !hangs(&one, 40)) continue;
    if (seen == 0) kill(child, SIGKILL);
    return seen == child && WIFEXITED(status) && WEXITSTATUS(status) == 0;
}

/* Markers may just begin when a fork comes. */
static int forks_early(void)
{
    struct own own = { .state = 5 };
    GC_allow_register_threads();
    make_all(&own);
    GC_gcollect();
    int is_well = ends(in_child);
    look_at_all(&own);
    return lost != 0 || !is_well;
}

static int threads_of_process(void)
{
    char line[200];
    int count = -1;
    FILE *file = fopen("/proc/self/status", "r");
    while (file && fgets(line, sizeof line, file)) (void)sscanf(line, "Threads: %d", &count);
    if (file) fclose(file);
    return count;
}

static void *nothing(void *data) { return data; }

/* There are as many threads as it says, beside those that the process began with. */
static void threads_are_there(int at_first)
{
    const char *markers = getenv("GC_MARKERS");
    struct GC_prof_stats_s stats;
    if (!markers || getenv("REFUSED")) return;
    int wanted = atoi(markers) - 1;
#ifdef __SANITIZE_THREAD__
    at_first++; /* it has one too, from the first thread on */
#endif
    CHECK(GC_get_parallel() == wanted);
    CHECK(GC_parallel == wanted);
    CHECK(GC_get_prof_stats(&stats, sizeof stats) == sizeof stats && stats.markers_m1 == (GC_word)wanted);
    for (int k = 0; k < 1000 && threads_of_process() != at_first + wanted; k++) usleep(1000); /* those that were joined may still end */
    CHECK(threads_of_process() == at_first + wanted);
}

/* They sleep between two collections. */
static int are_asleep(void)
{
    enum { TRIES = 50 };
    for (int k = 0; k < TRIES; k++) {
        double before = time_had(CLOCK_PROCESS_CPUTIME_ID);
        usleep(200000);
        if (time_had(CLOCK_PROCESS_CPUTIME_ID) - before < 0.002) return 1;
    }
    return 0;
}

/* The process ends with its last thread, though markers are there. Its last thread is this one, which the child has. */
static int leaves(void)
{
    struct own own = { .state = 5 };
    pthread_t thread;
    pthread_create(&thread, NULL, nothing, NULL);
    pthread_join(thread, NULL);
    make_all(&own);
    GC_gcollect();
    look_at_all(&own);
    if (lost == 0) pthread_exit(NULL);
    return 1;
}

/* The program has stopped the others itself, of which one may have a lock that a new thread wants: so no marker is made then. */
static int stopped_by_the_program(void)
{
    struct own own = { .state = 5 };
    GC_allow_register_threads();
    make_all(&own);
    int before = threads_of_process();
    GC_stop_world_external();
    GC_gcollect();
    int seen = threads_of_process();
    GC_start_world_external();
    look_at_all(&own);
    return lost != 0 || seen != before;
}

static void say(void)
{
    FILE *file = getenv("SAYS") ? fopen(getenv("SAYS"), "w") : NULL;
    for (int k = 0; file && k < THREADS; k++) fprintf(file, "%lu\n", (unsigned long)sums[k]);
    if (file) fclose(file);
}

int main(int count, char **words)
{
    static const GC_word bits[] = { 1 };
    pthread_t all[THREADS];
    pid_t watcher = watch(120);
    rounds = count > 1 ? atoi(words[1]) : 8;
    int at_first = threads_of_process();
    GC_INIT();
    CHECK(GC_get_parallel() == 0);
    first_word = GC_make_descriptor(bits, 3);
    CHECK(ends(stopped_by_the_program));
    CHECK(ends(forks_early));
    for (uintptr_t k = 0; k < THREADS; k++) pthread_create(&all[k], NULL, work, (void *)k);
    for (int k = 0; k < THREADS; k++) pthread_join(all[k], NULL);
    CHECK(lost == 0);
    threads_are_there(at_first);
    CHECK(are_asleep());
    int children = 0;
    while (children < 3 && ends(in_child)) children++;
    CHECK(children == 3);
    CHECK(ends(leaves));
    say();
    kill(watcher, SIGKILL);
    return check_ends();
}
