/* A collector's thread marks by mpheap_mark_beside while other threads write words by pointers, without a lock. What mpheap.h asks
 * of them is done here by page protection: while a cycle marks all pages are closed; the first write to a page faults, waits until
 * no step runs, tells the page and opens it. Open pages are closed again and read by mpheap_retrace_page_beside, the highest first,
 * while lower ones are open. The world stops for roots and the cycle's end alone. After each cycle all objects are compared with
 * what their threads wrote. beside SECONDS tells each page; beside SECONDS untold tells nothing, and then objects have to be lost,
 * or the test shows nothing. */
#define _GNU_SOURCE
#include "check.h"
#include "mpheap.h"
#include <pthread.h>
#include <sched.h>
#include <signal.h>
#include <stdatomic.h>
#include <stdlib.h>
#include <sys/mman.h>
#include <time.h>
#include <unistd.h>

enum { PAGES = 1024, THREADS = 2, NODES = 6000, STEP_WORDS = 512, NEW_NODE = 0, CHILD = 1, HELD = 2 };

typedef struct node {
    uint64_t tag; /* no address of the heap */
    struct node *child;
    uint64_t rest[6];
} node;

/* A thread that writes: its spine is an object of pointers to nodes, and beside it stands which tags these have. */
typedef struct writer {
    pthread_t thread;
    uint8_t slot;
    node **spine;
    uint64_t tags[NODES], child_tags[NODES], state, writes;
} writer;

static mpheap heap = MPHEAP_CLOSED;
static pthread_mutex_t lock = PTHREAD_MUTEX_INITIALIZER;
static __thread bool is_in_call;
static atomic_bool is_open[PAGES], is_marking, has_ended;
static atomic_int stops_wanted, stopped, turn, waiting;
static atomic_uint_fast64_t next_tag = (uint64_t)1 << 62;
static bool tells = true;
static writer writers[THREADS];
static uint64_t cycles, steps, read_again, lost;

static char *page_at(uint64_t page) {
    return (char *)(uintptr_t)(MPHEAP_FIRST_ADDRESS + page * MPHEAP_PAGE_BYTES);
}

static void enter(void) {
    atomic_fetch_add(&waiting, 1);
    pthread_mutex_lock(&lock);
    atomic_fetch_sub(&waiting, 1);
    is_in_call = true;
}

static void leave(void) {
    is_in_call = false;
    pthread_mutex_unlock(&lock);
}

/* Opens a page under the lock, once it is told. A call of the heap that clears a new object's words comes here too. */
static void open_page(uint64_t page) {
    if (atomic_load(&is_open[page])) return;
    if (atomic_load(&is_marking) && tells) mpheap_written(&heap, MPHEAP_FIRST_ADDRESS + page * MPHEAP_PAGE_BYTES);
    atomic_store(&is_open[page], true);
    if (mprotect(page_at(page), MPHEAP_PAGE_BYTES, PROT_READ | PROT_WRITE) != 0) abort();
}

/* Inside of a call the core is at work: the page is opened now, and told by who made the call. */
static __thread uint64_t noted[64];
static __thread int notes;

static void on_fault(int signal_number, siginfo_t *info, void *context) {
    uint64_t page = ((uint64_t)(uintptr_t)info->si_addr - MPHEAP_FIRST_ADDRESS) / MPHEAP_PAGE_BYTES;
    (void)context;
    if (page >= PAGES || notes == 64) {
        signal(signal_number, SIG_DFL);
        return;
    }
    if (is_in_call) {
        noted[notes++] = page;
        mprotect(page_at(page), MPHEAP_PAGE_BYTES, PROT_READ | PROT_WRITE);
        return;
    }
    enter();
    open_page(page);
    leave();
}

/* The end of a call that may have written. */
static void leave_noted(void) {
    for (; notes > 0; notes--) open_page(noted[notes - 1]);
    leave();
}

static uint64_t draw(writer *w, uint64_t below) {
    w->state ^= w->state << 13;
    w->state ^= w->state >> 7;
    w->state ^= w->state << 17;
    return (w->state >> 8) % below;
}

static void *new_object(writer *w, uint8_t into, uint64_t words) {
    uint64_t base = 0;
    enter();
    uint32_t status = mpheap_alloc_base(&heap, w->slot, into, words, &base);
    leave_noted();
    return status == MPHEAP_OK ? (void *)(uintptr_t)base : NULL;
}

/* A node with a child. Registers keep both until the spine does. */
static bool put_new(writer *w, uint64_t i) {
    node *child = new_object(w, CHILD, 8), *n = new_object(w, NEW_NODE, 8);
    if (child == NULL || n == NULL) return false;
    child->tag = w->child_tags[i] = atomic_fetch_add(&next_tag, 1);
    n->tag = w->tags[i] = atomic_fetch_add(&next_tag, 1);
    n->child = child;
    w->spine[i] = n;
    return true;
}

static void swap_tags(uint64_t *a, uint64_t *b) {
    uint64_t t = *a;
    *a = *b;
    *b = t;
}

/* Two nodes change places. For a moment one pointer stands in this function alone. */
static void swap_nodes(writer *w, uint64_t i, uint64_t j) {
    node *volatile *spine = w->spine;
    node *first = spine[i];
    spine[i] = NULL;
    node *second = spine[j];
    spine[j] = first;
    if (i == j) return;
    spine[i] = second;
    swap_tags(&w->tags[i], &w->tags[j]);
    swap_tags(&w->child_tags[i], &w->child_tags[j]);
}

static void swap_children(writer *w, uint64_t i, uint64_t j) {
    volatile node *a = w->spine[i], *b = w->spine[j];
    if (i == j) return;
    node *first = a->child;
    a->child = NULL;
    node *second = b->child;
    b->child = first;
    a->child = second;
    swap_tags(&w->child_tags[i], &w->child_tags[j]);
}

static void wait_until_the_world_goes_on(void) {
    int now = atomic_load(&turn);
    atomic_fetch_add(&stopped, 1);
    while (atomic_load(&turn) == now && !atomic_load(&has_ended)) sched_yield();
}

static void *write_on(void *given) {
    writer *w = given;
    uint64_t near = 0;
    while (!atomic_load(&has_ended)) {
        if (atomic_load(&stops_wanted)) {
            wait_until_the_world_goes_on();
            continue;
        }
        if (w->writes++ % 20000 == 0) near = draw(w, NODES);
        uint64_t i = (near + draw(w, 200)) % NODES, j = (near + draw(w, 200)) % NODES;
        switch (draw(w, 64)) {
        case 0: put_new(w, i); break;
        case 1: case 2: case 3: case 4: swap_children(w, i, j); break;
        default: swap_nodes(w, i, j);
        }
    }
    atomic_fetch_add(&stopped, 1);
    return NULL;
}

/* Whether all writers wait now. At the end of the test they don't. */
static bool stop_the_world(void) {
    atomic_store(&stopped, 0);
    atomic_store(&stops_wanted, 1);
    while (atomic_load(&stopped) < THREADS && !atomic_load(&has_ended)) sched_yield();
    return !atomic_load(&has_ended);
}

static void let_the_world_go_on(void) {
    atomic_store(&stops_wanted, 0);
    atomic_fetch_add(&turn, 1);
}

static void look_at_all(void) {
    for (int k = 0; k < THREADS; k++) {
        writer *w = &writers[k];
        for (int i = 0; i < NODES; i++) {
            node *n = w->spine[i];
            if (n->tag != w->tags[i] || n->child == NULL || n->child->tag != w->child_tags[i]) lost++;
        }
    }
}

/* Closes all pages: what is written from here on is told first. */
static void begin(void) {
    enter();
    mpheap_begin(&heap);
    mpheap_roots(&heap);
    atomic_store(&is_marking, true);
    for (int page = 0; page < PAGES; page++) atomic_store(&is_open[page], false);
    mprotect(page_at(0), (size_t)PAGES * MPHEAP_PAGE_BYTES, PROT_READ);
    leave();
}

static void mark(void) {
    uint64_t read = STEP_WORDS;
    mpheap_asked asked = MPHEAP_ASKED;
    while (read == STEP_WORDS && !atomic_load(&has_ended)) {
        while (atomic_load(&waiting) > 0) sched_yield();
        enter();
        mpheap_mark_beside(&heap, STEP_WORDS, &asked, &read);
        leave();
        steps++;
    }
}

/* Each page that is open now, with the lock for one at a time. */
static void retrace(void) {
    mpheap_asked asked = MPHEAP_ASKED;
    for (uint32_t page = PAGES; page > 0 && !atomic_load(&has_ended);) {
        uint64_t count = 0;
        if (!atomic_load(&is_open[--page])) continue;
        while (atomic_load(&waiting) > 0) sched_yield();
        enter();
        atomic_store(&is_open[page], false);
        mprotect(page_at(page), MPHEAP_PAGE_BYTES, PROT_READ);
        mpheap_retrace_page_beside(&heap, page, &asked, &count);
        leave();
        read_again += count;
    }
}

/* With the world stopped. Behind it nothing has to be told until the next cycle begins, since a free is done. */
static void finish(void) {
    uint64_t count = 0, base = 0;
    enter();
    mpheap_finish(&heap, &count);
    atomic_store(&is_marking, false);
    if (mpheap_alloc_base(&heap, writers[0].slot, HELD, 2, &base) == MPHEAP_OK) mpheap_free(&heap, writers[0].slot, HELD);
    mprotect(page_at(0), (size_t)PAGES * MPHEAP_PAGE_BYTES, PROT_READ | PROT_WRITE);
    for (int page = 0; page < PAGES; page++) atomic_store(&is_open[page], true);
    notes = 0;
    leave();
}

static void sweep_all(void) {
    uint64_t count = 1;
    while (count != 0) {
        while (atomic_load(&waiting) > 0) sched_yield();
        enter();
        mpheap_sweep(&heap, &count);
        leave();
    }
}

static void *collect_on(void *given) {
    (void)given;
    while (lost == 0) {
        if (!stop_the_world()) break;
        begin();
        let_the_world_go_on();
        mark();
        retrace();
        mark();
        if (!stop_the_world()) break;
        finish();
        look_at_all();
        let_the_world_go_on();
        sweep_all();
        cycles++;
    }
    return NULL;
}

static void open_heap(void) {
    uint64_t base = 0;
    struct sigaction action = { 0 };
    action.sa_sigaction = on_fault;
    action.sa_flags = SA_SIGINFO | SA_NODEFER;
    sigaction(SIGSEGV, &action, NULL);
    if (mpheap_open_mapped(PAGES, &heap) != MPHEAP_OK) exit(2);
    for (int page = 0; page < PAGES; page++) atomic_store(&is_open[page], true);
    for (uint64_t k = 0; k < THREADS; k++) {
        writer *w = &writers[k];
        w->state = 88172645463325252u * (k + 1) + k;
        mpheap_attach(&heap, &w->slot);
        if (mpheap_alloc_base(&heap, w->slot, HELD + 1, NODES, &base) != MPHEAP_OK) exit(2);
        w->spine = (node **)(uintptr_t)base;
        for (uint64_t i = 0; i < NODES; i++)
            if (!put_new(w, i)) exit(2);
    }
}

static void wait_for(unsigned seconds) {
    struct timespec tenth = { 0, 100000000 };
    for (unsigned i = 0; i < 10 * seconds && lost == 0; i++) nanosleep(&tenth, NULL);
}

int main(int argc, char **argv) {
    pthread_t collector;
    uint64_t writes = 0;
    tells = argc < 3;
    open_heap();
    for (int k = 0; k < THREADS; k++) pthread_create(&writers[k].thread, NULL, write_on, &writers[k]);
    pthread_create(&collector, NULL, collect_on, NULL);
    wait_for(argc > 1 ? (unsigned)strtoul(argv[1], NULL, 10) : 5);
    atomic_store(&has_ended, true);
    for (int k = 0; k < THREADS; k++) pthread_join(writers[k].thread, NULL);
    pthread_join(collector, NULL);
    for (int k = 0; k < THREADS; k++) writes += writers[k].writes;
    if (tells) {
        look_at_all();
        IS(lost, 0);
        IS(cycles > 1 && steps > cycles && read_again > cycles, 1);
    } else {
        IS(lost > 0, 1);
    }
    printf("beside: %" PRIu64 " writes, %" PRIu64 " steps, %" PRIu64 " pages read again, %" PRIu64 " cycles, %s\n", writes, steps, read_again,
           cycles, tells ? "told" : "untold");
    return counts("beside");
}
