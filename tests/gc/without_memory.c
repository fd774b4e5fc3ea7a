/* Where malloc has no memory left: a thread's stack is found, another one isn't made, a key isn't set to an object, a link isn't registered, and a typed object is
 * answered by the program's function for memory that runs out; all of it is done when there is some again, and nothing is lost meanwhile. */
#define _GNU_SOURCE
#define GC_THREADS
#include <errno.h>
#include <pthread.h>
#include <stdint.h>
#include <sys/resource.h>
#include "gc.h"
#include <gc/gc_typed.h>
#include "check.h"

enum { MOST = 300000, SPARE = 1 << 24, LARGEST = 1 << 20, LEAST = 16 };
struct pair { struct pair *next; uint64_t number; };

static void *spare;

/* No more addresses are given than the process has, and malloc's are taken. */
static int takes_all(void)
{
    unsigned long pages = 0;
    FILE *file = fopen("/proc/self/statm", "r");
    if (!file || fscanf(file, "%lu", &pages) != 1) return 0;
    fclose(file);
    spare = malloc(SPARE);
    rlim_t most = pages * 4096 + SPARE;
    if (!spare || setrlimit(RLIMIT_AS, &(struct rlimit){ most, most }) != 0) return 0;
    for (size_t bytes = LARGEST; bytes >= LEAST; bytes /= 2)
        while (malloc(bytes)) continue;
    return 1;
}

static void *answer_it(void *data) { return data; }
static int makes_no_thread(void)
{
    pthread_t thread;
    void *answer = NULL;
    GC_INIT();
    GC_allow_register_threads();
    if (!takes_all()) return 1;
    int status = GC_pthread_create(&thread, NULL, answer_it, &thread);
    if (status != EAGAIN && status != ENOMEM) return 2;
    free(spare);
    if (GC_pthread_create(&thread, NULL, answer_it, &thread) != 0 || GC_pthread_join(thread, &answer) != 0) return 3;
    return answer == &thread ? 0 : 4;
}

/* The C library doesn't tell of a stack then: of one whose end is taken for the first one's a collection would read what isn't there. */
static int finds_its_stack(void)
{
    enum { LARGEST_STACK = 1 << 26 };
    struct GC_stack_base base;
    char here;
    if (GC_get_stack_base(&base) != GC_SUCCESS) return 1;
    uintptr_t end = (uintptr_t)base.mem_base;
    return end > (uintptr_t)&here && end - (uintptr_t)&here < LARGEST_STACK ? 0 : 2;
}
static void *looks(void *data)
{
    int *answer = data;
    *answer = takes_all() ? finds_its_stack() : 3;
    free(spare);
    GC_gcollect();
    return data;
}
static int finds_stacks(void)
{
    pthread_t thread;
    int answer = 4;
    GC_INIT();
    GC_allow_register_threads();
    if (GC_pthread_create(&thread, NULL, looks, &answer) != 0 || GC_pthread_join(thread, NULL) != 0 || answer != 0) return answer;
    while (malloc(LEAST)) continue;
    return finds_its_stack();
}

static int sets_no_key(void)
{
    pthread_key_t key;
    GC_INIT();
    void *object = GC_malloc(16);
    if (pthread_key_create(&key, NULL) != 0 || !takes_all()) return 1;
    if (pthread_setspecific(key, object) != ENOMEM || pthread_setspecific(key, &key) != 0) return 2;
    free(spare);
    return pthread_getspecific(key) == &key && pthread_setspecific(key, object) == 0 && pthread_getspecific(key) == object ? 0 : 3;
}

static int registers_no_link(void)
{
    static void *words[MOST];
    int made = 0;
    GC_INIT();
    void *object = GC_malloc(16);
    if (!takes_all() || GC_general_register_disappearing_link(&words[0], object) != GC_NO_MEMORY) return 1;
    free(spare);
    while (made < MOST / 10 && GC_general_register_disappearing_link(&words[made], object) == GC_SUCCESS) made++;
    return made == MOST / 10 ? 0 : 2;
}

static int times;
static void *count_it(size_t bytes)
{
    times += bytes >= sizeof(struct pair);
    return NULL;
}
static struct pair *chain;
static int is_made(GC_descr type, uint64_t number)
{
    struct pair *one = GC_malloc_explicitly_typed(sizeof *one, type);
    if (!one) return 0;
    *one = (struct pair){ chain, number };
    chain = one;
    return 1;
}
static int makes_no_typed_object(void)
{
    GC_INIT();
    GC_descr type = GC_make_descriptor(&(GC_word){ 1 }, 2);
    uint64_t made = 0;
    GC_set_oom_fn(count_it);
    while (made < 1000 && is_made(type, made)) made++;
    if (!takes_all()) return 1;
    while (made < MOST && is_made(type, made)) made++;
    if (made == MOST || times == 0) return 2;
    free(spare);
    GC_gcollect();
    for (uint64_t before = made; made < before + 10000; made++)
        if (!is_made(type, made)) return 3;
    for (const struct pair *one = chain; one; one = one->next)
        if (one->number != --made) return 4;
    return made == 0 ? 0 : 5;
}

int main(void)
{
    CHECK(status_of(finds_stacks) == 0);
    CHECK(status_of(makes_no_thread) == 0);
    CHECK(status_of(sets_no_key) == 0);
    CHECK(status_of(registers_no_link) == 0);
    CHECK(status_of(makes_no_typed_object) == 0);
    return check_ends();
}
