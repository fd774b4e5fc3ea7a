/* What the tests in C share: they count what is as it should be and what isn't, and print each thing that isn't. */
#ifndef CHECK_H
#define CHECK_H
#include <inttypes.h>
#include <stdio.h>

static int passed, failed;

#define IS(seen, wanted) is(__FILE__, __LINE__, #seen, (uint64_t)(seen), (uint64_t)(wanted))
static inline void is(const char *file, int line, const char *what, uint64_t seen, uint64_t wanted) {
    if (seen == wanted) {
        passed++;
    } else {
        failed++;
        printf("%s:%d: %s is %" PRIu64 ", not %" PRIu64 "\n", file, line, what, seen, wanted);
    }
}

static inline int counts(const char *name) {
    printf("%s: %d passed, %d failed\n", name, passed, failed);
    return failed != 0;
}
#endif
