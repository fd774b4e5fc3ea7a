/* Long arrays of pointers: what they lead to finds no room on the core's mark stack, and is read again with its page. In small steps that is done
 * before a cycle's end, to which few pages are left: the figures say how many, of a process that makes them. */
#define _GNU_SOURCE
#include <signal.h>
#include <stdint.h>
#include "gc.h"
#include "check.h"

enum { ARRAYS = 40, LENGTH = 3000, ROUNDS = 20, FEW = 64 };
struct entry { struct entry *next; uint64_t *number; uint64_t key; };

#define SAID "full, the longest %*u us; %lu cycles, their longest end %*u us, at most %lu pages"

static struct entry **arrays[ARRAYS];

static struct entry *make(uint64_t key)
{
    struct entry *made = GC_malloc(sizeof *made);
    made->number = GC_malloc(sizeof *made->number);
    made->next = GC_malloc(sizeof *made);
    made->next->key = made->key = *made->number = key;
    return made;
}

/* In a scattered order, so that neighbours of the array lie on pages far apart. */
static void fill(int array)
{
    for (uint64_t k = 0; k < LENGTH; k++) {
        uint64_t at = k * 1999 % LENGTH;
        arrays[array][at] = make(at);
    }
}

static int is_whole(int array)
{
    for (uint64_t k = 0; k < LENGTH; k++) {
        const struct entry *one = arrays[array][k];
        if (one->key != k || *one->number != k || one->next->key != k) return 0;
    }
    return 1;
}

static int work(void)
{
    GC_INIT();
    for (int array = 0; array < ARRAYS; array++) {
        arrays[array] = GC_malloc(LENGTH * sizeof *arrays[array]);
        fill(array);
    }
    for (int round = 0; round < ROUNDS; round++) fill(round * 7 % ARRAYS);
    for (int array = 0; array < ARRAYS; array++) CHECK(is_whole(array));
    return check_ends();
}

int main(int count, char **words)
{
    char command[4096], line[512];
    unsigned long cycles = 0, left = 0;
    int lines = 0;
    if (count > 1) return work();
    snprintf(command, sizeof command, "GC_PRINT_STATS=1 '%s' work 2>&1", words[0]);
    FILE *said = popen(command, "r");
    while (said && fgets(line, sizeof line, said)) {
        const char *figures = strstr(line, "full, the longest");
        if (strcmp(line, "40 passed, 0 failed\n") == 0) lines++;
        if (figures && sscanf(figures, SAID, &cycles, &left) == 2) lines++;
    }
    CHECK(said && pclose(said) == 0);
    CHECK(lines == 2);
    CHECK(cycles > 0 || !getenv("GC_ENABLE_INCREMENTAL"));
    CHECK(left < FEW);
    return check_ends();
}
