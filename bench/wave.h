/* What the timing programs share: the clock, the end of a run that differs, the wave and the flat pin. */
#ifndef WAVE_H
#define WAVE_H

#include <stdint.h>
#include <stdio.h>
#include <stdlib.h>
#include <time.h>

static inline double now(void)
{
    struct timespec t;
    clock_gettime(CLOCK_PROCESS_CPUTIME_ID, &t);
    return (double)t.tv_sec + 1e-9 * (double)t.tv_nsec;
}

static inline void fail(const char *what)
{
    printf("differs: %s\n", what);
    exit(1);
}

/* A square wave of 60 and 12,050 with noise, and a dip at every 37th tick. */
static inline int32_t value_at(uint32_t tick)
{
    uint32_t noise = tick * 2654435761u >> 24;
    if (tick % 37 == 36)
        return (int32_t)(7400 + noise);
    return (int32_t)((tick % 1000 < 500 ? 60 : 12050) + noise);
}

/* Every reading of a flat pin: all spreads are equal. */
enum { FLAT = 12050 };

#endif
