/* Numbers that look random, and are the same in each run, and the time. */
#ifndef DRAWN_H
#define DRAWN_H
#include <stdint.h>
#include <time.h>

/* The next one of such a row, which begins with any state but 0. */
static inline uint64_t drawn(uint64_t *state)
{
    *state ^= *state << 13;
    *state ^= *state >> 7;
    *state ^= *state << 17;
    return *state >> 8;
}

/* In seconds. */
static inline double now(void)
{
    struct timespec time;
    clock_gettime(CLOCK_MONOTONIC, &time);
    return (double)time.tv_sec + (double)time.tv_nsec / 1e9;
}
#endif
