/* Leaks: what is reached no more and wasn't freed is told of, with the place where a debugging request had asked for it, and nothing else is.
 * The same source runs over bdwgc where that is installed, with -DOTHER. */
#define _GNU_SOURCE
#define GC_DEBUG
#define GC_THREADS
#include <pthread.h>
#include <stdint.h>
#include "gc.h"
#include "check.h"

enum { LEAKS = 9, MANY = 100 };
static void *volatile kept[LEAKS];
static char said[20000];

static __attribute__((noinline)) void clear_stack(void)
{
    char old[20000];
    explicit_bzero(old, sizeof old);
}

/* What a child says on standard error, that runs the body. */
static const char *said_by(void (*body)(void))
{
    size_t length = 0;
    int ends[2];
    if (pipe(ends) != 0) return "no pipe";
    fflush(stdout);
    pid_t child = fork();
    if (child == 0) {
        dup2(ends[1], 2);
        close(ends[0]);
        GC_set_find_leak(1);
        GC_INIT();
        body();
        clear_stack();
        GC_gcollect();
        exit(0);
    }
    close(ends[1]);
    for (ssize_t n; (n = read(ends[0], said + length, sizeof said - 1 - length)) > 0;) length += (size_t)n;
    said[length] = 0;
    close(ends[0]);
    waitpid(child, NULL, 0);
    return said;
}

/* How many lines have the text. */
static int lines_with(const char *lines, const char *text)
{
    int count = 0;
    for (const char *at = lines; (at = strstr(at, text)); at++) count++;
    return count;
}

static __attribute__((noinline)) void leave(size_t bytes, int is_kept, int is_freed)
{
    for (int k = 0; k < LEAKS; k++) {
        void *object = k % 3 == 0 ? GC_MALLOC_ATOMIC(bytes) : GC_MALLOC(bytes);
        if (is_kept) kept[k] = object;
        if (is_freed) GC_FREE(object);
    }
}
static void leaves(void) { leave(24, 0, 0); }
static void keeps(void) { leave(24, 1, 0); }
static void frees(void) { leave(24, 0, 1); }
static void *free_all(void *data)
{
    for (int k = 0; k < LEAKS; k++) leave(24, 0, 1);
    return data;
}
static void frees_in_thread(void)
{
    pthread_t thread;
    if (pthread_create(&thread, NULL, free_all, NULL) == 0) pthread_join(thread, NULL);
}
static void leaves_twice(void)
{
    leave(24, 0, 0);
    clear_stack();
    GC_gcollect();
    leave(48, 0, 0);
}

/* A list of which the first one alone could be told by a pointer: all are leaks. */
static void leaves_list(void)
{
    void **first = NULL;
    for (int k = 0; k < LEAKS; k++) {
        void **next = GC_MALLOC(16);
        *next = first;
        first = next;
    }
}
static void leaves_many(void)
{
    for (int k = 0; k < MANY; k++) (void)(GC_malloc)(100);
}

int main(void)
{
    /* A stray word of the stack may keep one or two. */
    const char *lines = said_by(leaves);
    CHECK(strstr(lines, "Found ") == lines && lines_with(lines, "leaks.c:") >= LEAKS - 2);
    CHECK(lines_with(lines, "sz= 24, PTRFREE)") >= LEAKS / 3 - 2 && lines_with(lines, "sz= 24, NORMAL)") >= LEAKS / 3 * 2 - 2);
    CHECK(lines_with(lines, "leaks.c:") <= LEAKS);
    CHECK(*said_by(keeps) == 0);
    CHECK(*said_by(frees) == 0);
    CHECK(*said_by(frees_in_thread) == 0);
    lines = said_by(leaves_twice);
    CHECK(lines_with(lines, "sz= 24,") >= LEAKS - 2 && lines_with(lines, "sz= 24,") <= LEAKS && lines_with(lines, "sz= 48,") >= LEAKS - 2);
    CHECK(lines_with(said_by(leaves_list), "sz= 16, NORMAL") >= LEAKS - 2);
    lines = said_by(leaves_many);
    CHECK(strstr(lines, "Found 40 leaked objects:\n") != NULL && lines_with(lines, "object at 0x") >= 40);
    CHECK(lines_with(lines, "of appr. 112 bytes (composite)") + lines_with(lines, "of appr. 128 bytes (composite)") >= 40);
    return check_ends();
}
