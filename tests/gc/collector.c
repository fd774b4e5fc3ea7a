/* The collector has a thread of its own, which marks while these threads write. Each thing that they keep has a shadow in malloc's memory.
 *
 *     collector SECONDS
 *
 * takes so many seconds for the threads that move pointers, and a few for the rest. The program asks for no collection but where it says so. */
#define _GNU_SOURCE
#define GC_THREADS
#include <errno.h>
#include <pthread.h>
#include <sched.h>
#include <signal.h>
#include <stdint.h>
#include "gc.h"
#include <gc/gc_mark.h>
#include "check.h"
#include "drawn.h"
#include "waits.h"
#include "watch.h"

enum { THREADS = 3, NODES = 4000, SLOTS = 200 };

struct node { uint64_t tag; struct node *child; uint64_t rest[5]; };

/* What one thread keeps: nodes with a child each, and their tags, which are no addresses. */
struct graph { struct node *volatile *spine; uint64_t *tags, *child_tags, state; };

static _Atomic uint64_t next_tag = (uint64_t)1 << 62;
static _Atomic int lost, is_over;
static double until;
static GC_word wanted; /* so many collections, or the machine is too busy for the test */
enum { PATIENCE = 120 }; /* seconds more, for these */

static void pause_for(long microseconds)
{
    struct timespec some = { 0, microseconds * 1000 };
    nanosleep(&some, NULL);
}

static uint64_t draw(struct graph *graph, uint64_t below) { return drawn(&graph->state) % below; }

static struct node *new_node(uint64_t *tag, struct node *child)
{
    struct node *node = GC_malloc(sizeof *node);
    if (node->tag != 0 || node->child) lost++;
    node->tag = *tag = next_tag++;
    node->child = child;
    return node;
}

static void put_new(struct graph *graph, uint64_t k)
{
    graph->spine[k] = new_node(&graph->tags[k], new_node(&graph->child_tags[k], NULL));
}

static struct graph new_graph(uint64_t seed)
{
    struct graph graph = { GC_malloc(NODES * sizeof *graph.spine), calloc(NODES, 8), calloc(NODES, 8), seed * 0x9E3779B97F4A7C15ull + 1 };
    for (uint64_t k = 0; k < NODES; k++) put_new(&graph, k);
    return graph;
}

static int is_node(const struct node *node, uint64_t tag, uint64_t child_tag)
{
    return node->tag == tag && node->child && node->child->tag == child_tag && !node->child->child;
}

static void look_at(const struct graph *graph, uint64_t from, uint64_t to)
{
    for (uint64_t k = from; k < to; k++) lost += !is_node(graph->spine[k], graph->tags[k], graph->child_tags[k]);
}

static void drop(struct graph *graph)
{
    look_at(graph, 0, NODES);
    free(graph->tags);
    free(graph->child_tags);
}

static void swap_tags(uint64_t *a, uint64_t *b)
{
    uint64_t kept = *a;
    *a = *b;
    *b = kept;
}

/* For a moment one of the pointers is in a register alone, and it may come to where the marker has been. */
static void swap_nodes(struct graph *graph, uint64_t a, uint64_t b)
{
    struct node *first = graph->spine[a];
    graph->spine[a] = NULL;
    struct node *second = graph->spine[b];
    graph->spine[b] = first;
    graph->spine[a] = a == b ? first : second;
    swap_tags(&graph->tags[a], &graph->tags[b]);
    swap_tags(&graph->child_tags[a], &graph->child_tags[b]);
}

static void swap_children(struct graph *graph, uint64_t a, uint64_t b)
{
    struct node *volatile *one = (struct node *volatile *)&graph->spine[a]->child, *volatile *other = &graph->spine[b]->child;
    struct node *first = *one;
    *one = NULL;
    struct node *second = *other;
    *other = first;
    *one = a == b ? first : second;
    swap_tags(&graph->child_tags[a], &graph->child_tags[b]);
}

/* What was lost is given out again, and has another tag then. */
static void waste(void)
{
    struct node *junk = GC_malloc(sizeof *junk);
    junk->tag = 7;
    junk->child = junk;
}

/* A node goes by a free, with its child, and another one comes. */
static void renew(struct graph *graph, uint64_t k)
{
    struct node *node = graph->spine[k], *child = node->child;
    put_new(graph, k);
    GC_free(node);
    GC_free(child);
    char *large = GC_malloc(9000);
    large[8999] = 1;
    GC_free(large);
}

static void write_some(struct graph *graph)
{
    uint64_t near = draw(graph, NODES);
    for (int k = 0; k < 300; k++) {
        uint64_t a = (near + draw(graph, 100)) % NODES, b = draw(graph, 8) ? (near + draw(graph, 100)) % NODES : draw(graph, NODES);
        switch (draw(graph, 16)) {
        case 0: put_new(graph, a); break;
        case 1: renew(graph, a); break;
        case 2: case 3: case 4: case 5: case 6: waste(); break;
        case 7: case 8: case 9: swap_children(graph, a, b); break;
        default: swap_nodes(graph, a, b);
        }
    }
    look_at(graph, near, near + 100 < NODES ? near + 100 : NODES);
}

static int goes_on(void)
{
    double time = now();
    return lost == 0 && !is_over && (time < until || (GC_get_gc_no() < wanted && time < until + PATIENCE));
}

static void go_on_for(double seconds)
{
    is_over = 0;
    until = now() + seconds;
    wanted = GC_get_gc_no() + 3;
}

static void *write_on(void *seed)
{
    struct graph graph = new_graph((uintptr_t)seed);
    while (goes_on()) write_some(&graph);
    drop(&graph);
    return seed;
}

static pthread_t all[THREADS];
static void start(void *(*body)(void *))
{
    for (uintptr_t k = 0; k < THREADS; k++) pthread_create(&all[k], NULL, body, (void *)(k + 1));
}
static void stop(void)
{
    is_over = 1;
    for (int k = 0; k < THREADS; k++) pthread_join(all[k], NULL);
}

/* One thread, beside which the collector's marks. */
static void alone(double seconds)
{
    go_on_for(seconds);
    write_on((void *)99);
    CHECK(lost == 0);
    CHECK(GC_get_gc_no() >= wanted);
}

/* Threads that move pointers, make nodes and free them. */
static void moving(double seconds)
{
    go_on_for(seconds);
    start(write_on);
    write_on((void *)98);
    stop();
    CHECK(lost == 0);
    CHECK(GC_get_gc_no() >= wanted);
}

/* Two threads write to one page at the same moment, again and again: children change places between that page, which is a low one, and
 * the nodes of a graph, of which the marker may have read none yet. */
static struct node *volatile *page;
static uint64_t page_tags[2][SLOTS];
static struct meeting both;

static void swap_with_page(struct graph *graph, unsigned side, uint64_t slot, uint64_t k)
{
    struct node *volatile *at = &page[side * SLOTS + slot], *volatile *other = (struct node *volatile *)&graph->spine[k]->child;
    struct node *second = *other;
    *other = NULL;
    struct node *first = *at;
    *at = second;
    *other = first;
    swap_tags(&page_tags[side][slot], &graph->child_tags[k]);
}

static void *write_to_page(void *seed)
{
    unsigned side = (uintptr_t)seed % 2;
    struct graph graph = new_graph((uintptr_t)seed + 40);
    for (int round = 0, is_last = 0; !is_last; round++) {
        meet(&both);
        is_last = is_over;
        meet(&both);
        for (int k = 0; k < 60; k++) swap_with_page(&graph, side, draw(&graph, SLOTS), draw(&graph, NODES));
        for (int k = 0; k < 200; k++) waste();
        if (!goes_on()) is_over = 1;
    }
    for (unsigned k = 0; k < SLOTS; k++) lost += page[side * SLOTS + k]->tag != page_tags[side][k];
    drop(&graph);
    return seed;
}

static void on_one_page(double seconds)
{
    pthread_t other;
    will_meet(&both, 2);
    for (unsigned side = 0; side < 2; side++)
        for (unsigned k = 0; k < SLOTS; k++) page[side * SLOTS + k] = new_node(&page_tags[side][k], NULL);
    go_on_for(seconds);
    pthread_create(&other, NULL, write_to_page, (void *)1);
    write_to_page((void *)2);
    pthread_join(other, NULL);
    CHECK(lost == 0);
}

/* The kernel writes the only pointer to a node into an object, while the collector marks. */
static void *read_pointers(void *seed)
{
    int ends[2];
    struct graph graph = new_graph((uintptr_t)seed + 80);
    if (pipe(ends) != 0) abort();
    while (goes_on()) {
        for (int k = 0; k < 30; k++) {
            uint64_t a = draw(&graph, NODES), b = draw(&graph, NODES);
            struct node *other = graph.spine[b];
            if (write(ends[1], (void *)(uintptr_t)&graph.spine[a], sizeof other) != sizeof other) abort();
            if (read(ends[0], (void *)(uintptr_t)&graph.spine[b], sizeof other) != sizeof other) lost++;
            if (a != b) graph.spine[a] = other;
            swap_tags(&graph.tags[a], &graph.tags[b]);
            swap_tags(&graph.child_tags[a], &graph.child_tags[b]);
            for (int j = 0; j < 10; j++) waste();
        }
        look_at(&graph, 0, 100);
    }
    close(ends[0]);
    close(ends[1]);
    drop(&graph);
    return seed;
}

static void reading(double seconds)
{
    go_on_for(seconds);
    start(read_pointers);
    write_on((void *)97);
    stop();
    CHECK(lost == 0);
}

/* A thread waits in its handler, for the lock, while the world stops and the cycle that closed the page ends, and others go by. It has the
 * only pointer to a node in a register. */
enum { PLACES = 3000 };
static struct node *volatile *place;
static _Atomic int is_about_to_write;
static uint64_t late_tag, late_child_tag;

static void *write_late(void *on_alt)
{
    stack_t alt = { .ss_sp = malloc(65536), .ss_size = 65536 }, none = { .ss_flags = SS_DISABLE };
    if (on_alt) sigaltstack(&alt, NULL);
    struct node *node = new_node(&late_tag, new_node(&late_child_tag, NULL));
    is_about_to_write = 1;
    while (is_about_to_write == 1) sched_yield();
    place[PLACES / 2] = node;
    if (on_alt) sigaltstack(&none, NULL);
    free(alt.ss_sp);
    return on_alt;
}

static void stopped_in_handler(void)
{
    place = GC_malloc(PLACES * sizeof *place);
    for (uintptr_t round = 0; round < 12; round++) {
        pthread_t thread;
        is_about_to_write = 0;
        place[PLACES / 2] = NULL;
        pthread_create(&thread, NULL, write_late, (void *)(round % 2));
        while (is_about_to_write == 0) sched_yield();
        GC_start_incremental_collection();
        GC_alloc_lock();
        is_about_to_write = 2;
        pause_for(3000);
        for (uintptr_t k = 0; k < round % 3; k++) GC_gcollect();
        for (int k = 0; k < 2000; k++) waste();
        GC_alloc_unlock();
        pthread_join(thread, NULL);
        GC_gcollect();
        for (int k = 0; k < 2000; k++) waste();
        CHECK(is_node(place[PLACES / 2], late_tag, late_child_tag));
    }
}

/* A child made while the collector's thread marks goes on by itself. */
static int in_child(void)
{
    GC_word before = GC_get_gc_no();
    double end = now() + 2 * PATIENCE;
    struct graph graph = new_graph(5);
    lost = 0;
    while (GC_get_gc_no() < before + 3 && now() < end) write_some(&graph);
    drop(&graph);
    return now() < end ? lost != 0 : 2;
}

static void forks(void)
{
    int status = 0;
    struct graph graph = new_graph(6);
    go_on_for(60);
    start(write_on);
    for (int k = 0; k < 6; k++) {
        for (int j = 0; j < 5; j++) write_some(&graph);
        status |= status_of(in_child);
    }
    CHECK(status == 0);
    if (status != 0) printf("  a child answered %d\n", status);
    stop();
    drop(&graph);
    CHECK(lost == 0);
}

/* Threads that write to a page and end. */
static struct graph shared;
static void *write_and_end(void *seed)
{
    for (int k = 0; k < 5; k++) swap_nodes(&shared, draw(&shared, NODES), draw(&shared, NODES));
    if (draw(&shared, 2)) pthread_exit(seed);
    return seed;
}

static void endings(double seconds)
{
    double end = now() + seconds;
    shared = new_graph(7);
    go_on_for(60);
    start(write_on);
    while (lost == 0 && now() < end) {
        pthread_t thread;
        pthread_create(&thread, NULL, write_and_end, (void *)3);
        pthread_join(thread, NULL);
        waste();
    }
    stop();
    drop(&shared);
    CHECK(lost == 0);
}

/* The process ends with its last thread, though the collector's is there. By the pipe it tells when it is about to. */
static int leaves(int tells)
{
    go_on_for(0.1);
    write_on((void *)50);
    close(tells);
    if (lost == 0) pthread_exit(NULL);
    return 1;
}

static int ends_with_its_last_thread(void)
{
    int status = 0, ends[2];
    char none;
    if (pipe(ends) != 0) return 0;
    fflush(stdout);
    pid_t child = fork(), seen = 0;
    if (child == 0) _exit(leaves(ends[1]));
    close(ends[1]);
    if (read(ends[0], &none, 1) != 0) return 0;
    close(ends[0]);
    struct watched one = watched(child);
    while ((seen = waitpid(child, &status, WNOHANG)) == 0 && !hangs(&one, 40)) continue;
    if (seen == 0) kill(child, SIGKILL);
    return seen == child && WIFEXITED(status) && WEXITSTATUS(status) == 0;
}

/* Behind a call under the lock the program has a moment's work to do, and is let do it before its roots are read: 20 us of its own work, but
   no longer than 200 ms of time. Its work is counted from within the call, so a little longer than the layer counts it. */
static clockid_t own_clock;
static volatile double called_at, had_worked;
static volatile int is_between;
static int readings, early;
static GC_push_other_roots_proc others;
static double microseconds(clockid_t clock)
{
    struct timespec time = { 0, 0 };
    clock_gettime(clock, &time);
    return (double)time.tv_sec * 1e6 + (double)time.tv_nsec / 1e3;
}
static void work_for(int rounds)
{
    for (volatile int k = 0; k < rounds; k++) continue;
}
static void *begin_between(void *data)
{
    work_for(100000);
    called_at = microseconds(CLOCK_MONOTONIC);
    had_worked = microseconds(own_clock);
    is_between = 1;
    return data;
}
static void note_reading(void)
{
    readings++;
    early += is_between && microseconds(own_clock) - had_worked < 20 && microseconds(CLOCK_MONOTONIC) - called_at < 200000;
    if (others) others();
}
static void behind_calls(void)
{
    void *volatile held[60];
    void *volatile *written = GC_malloc(4096);
    GC_word end = GC_get_gc_no() + 200;
    CHECK(pthread_getcpuclockid(pthread_self(), &own_clock) == 0);
    others = GC_get_push_other_roots();
    GC_set_push_other_roots(note_reading);
    while (GC_get_gc_no() < end) {
        for (int k = 0; k < 60; k++) held[k] = GC_malloc(40);
        GC_call_with_alloc_lock(begin_between, NULL);
        *written = held[0]; /* for which it needs the lock, where the page is closed */
        work_for(3000);
        is_between = 0;
    }
    (void)held[0];
    GC_set_push_other_roots(others);
    CHECK(readings >= 200 && early == 0);
}

/* What is asked for and freed again begins no cycle, also where the collector's thread couldn't look meanwhile. */
static void none_for_what_is_freed(void)
{
    enum { BYTES = 1 << 20, KEPT = 20, FREED = 100 };
    GC_word divisor = GC_get_free_space_divisor();
    void *volatile kept = GC_malloc(KEPT * (size_t)BYTES);
    GC_set_free_space_divisor(1);
    GC_gcollect();
    GC_alloc_lock();
    GC_word before = GC_get_gc_no();
    for (int k = 0; k < FREED; k++) GC_free(GC_malloc_atomic(BYTES));
    CHECK(GC_get_gc_no() == before);
    GC_alloc_unlock();
    GC_free(kept);
    GC_set_free_space_divisor(divisor);
}

int main(int count, char **words)
{
    double seconds = count > 1 ? atof(words[1]) : 2;
    pid_t watcher = watch(600);
    GC_set_free_space_divisor(40);
    GC_INIT();
    GC_enable_collector_thread();
    none_for_what_is_freed();
    page = GC_malloc(2 * SLOTS * sizeof *page);
    behind_calls();
    alone(seconds / 4);
    on_one_page(seconds / 2);
    moving(seconds);
    reading(seconds / 2);
    stopped_in_handler();
    endings(seconds / 4);
    forks();
    CHECK(ends_with_its_last_thread());
    kill(watcher, SIGKILL);
    return check_ends();
}
