/* What the kernel says of a thread: a test waits until it is so, and for no time, which says nothing on a busy machine. */
#ifndef STATES_H
#define STATES_H
#include <fcntl.h>
#include <inttypes.h>
#include <sched.h>
#include <stdio.h>
#include <stdlib.h>
#include <string.h>
#include <unistd.h>

/* What stands in the file of this name for the thread, behind the last of these words; or nothing, where it has ended. */
struct said { char text[4096]; };
static inline const char *said_of(pid_t thread, const char *name, const char *words, struct said *said)
{
    char path[64];
    snprintf(path, sizeof path, "/proc/self/task/%d/%s", (int)thread, name);
    int file = open(path, O_RDONLY);
    ssize_t length = file < 0 ? -1 : read(file, said->text, sizeof said->text - 1);
    if (file >= 0) close(file);
    said->text[length < 0 ? 0 : length] = 0;
    const char *at = NULL;
    for (const char *next = said->text; (next = strstr(next, words)); at = next) next += strlen(words);
    return at ? at : "";
}

static inline int is_asleep(pid_t thread)
{
    struct said said;
    return *said_of(thread, "stat", ") ", &said) == 'S';
}

/* Whether a signal waits for this thread alone, since it blocks it. */
static inline int has_pending(pid_t thread, int number)
{
    struct said said;
    uint64_t one = (uint64_t)1 << (number - 1), pending = strtoull(said_of(thread, "status", "\nSigPnd:", &said), NULL, 16);
    return (pending & strtoull(said_of(thread, "status", "\nSigBlk:", &said), NULL, 16) & one) != 0;
}

/* Whether the program can't write there: so it is where the page is closed. */
static inline int is_closed(const void *at)
{
    uintptr_t from, to, place = (uintptr_t)at;
    char line[512], access[8];
    int found = 0;
    FILE *all = fopen("/proc/self/maps", "r");
    while (all && fgets(line, sizeof line, all))
        if (sscanf(line, "%" SCNxPTR "-%" SCNxPTR " %7s", &from, &to, access) == 3 && place >= from && place < to) found = access[1] != 'w';
    if (all) fclose(all);
    return found;
}

/* This process, which has one thread, has one processor from now on, and nobody is taken off it for who was woken. */
static inline void have_one_processor(void)
{
    cpu_set_t one;
    CPU_ZERO(&one);
    CPU_SET(sched_getcpu(), &one);
    (void)!sched_setaffinity(0, sizeof one, &one);
    (void)!sched_setscheduler(0, SCHED_BATCH, &(struct sched_param){ 0 });
}
#endif
