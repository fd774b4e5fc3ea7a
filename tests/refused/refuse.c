/* Preloaded into a program by the tests of refused memory and threads: refuses requests for memory or starts of
 * threads, by their numbers from 1 on, and writes a byte to descriptor 3 for each that it refused. REFUSE_AT is the number of
 * the one request, REFUSE_FROM that of the first, REFUSE_START that of the one start. Trusted: that it counts as it says. */
#define _GNU_SOURCE
#include <dlfcn.h>
#include <errno.h>
#include <pthread.h>
#include <stdatomic.h>
#include <stdlib.h>
#include <unistd.h>

typedef int starts(pthread_t *thread, const pthread_attr_t *how, void *(*work)(void *), void *with);

void *__libc_malloc(size_t size);
void *__libc_realloc(void *old, size_t size);

static atomic_long asked, started;
static long at, from, start;
static starts *real_start;

static long number_of(const char *name) {
    const char *text = getenv(name);
    return text ? atol(text) : 0;
}

__attribute__((constructor)) static void read_settings(void) {
    at = number_of("REFUSE_AT");
    from = number_of("REFUSE_FROM");
    start = number_of("REFUSE_START");
    *(void **)&real_start = dlsym(RTLD_NEXT, "pthread_create");
}

static int is_told(void) { return write(3, ".", 1) == 1; }

static int is_refused(void) {
    long number = atomic_fetch_add(&asked, 1) + 1;
    return (number == at || (from != 0 && number >= from)) && is_told();
}

void *malloc(size_t size) { return is_refused() ? NULL : __libc_malloc(size); }

void *realloc(void *old, size_t size) { return is_refused() ? NULL : __libc_realloc(old, size); }

int pthread_create(pthread_t *thread, const pthread_attr_t *how, void *(*work)(void *), void *with) {
    if (atomic_fetch_add(&started, 1) + 1 == start && is_told()) return EAGAIN;
    return real_start(thread, how, work, with);
}
