/* What the programs here share: the time that is measured, and pseudo-random numbers. */
#ifndef COMMON_H
#define COMMON_H

#include <stdint.h>
#include <time.h>

#define SEED 2463534242u

/* the processor time of this process, so that others on the machine count little */
static inline double seconds(void)
{
    struct timespec t;
    clock_gettime(CLOCK_PROCESS_CPUTIME_ID, &t);
    return (double)t.tv_sec + (double)t.tv_nsec * 1e-9;
}

static inline uint32_t next_random(uint32_t *x)
{
    *x ^= *x << 13;
    *x ^= *x >> 17;
    *x ^= *x << 5;
    return *x;
}

#endif
