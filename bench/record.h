/* What the programs of this folder have in common: the clock, the printed lines, and two sums over records that do not depend on the order. */
#ifndef RECORD_H
#define RECORD_H

#include <inttypes.h>
#include <stdint.h>
#include <stdio.h>
#include <time.h>

/* The clock on the wall and the process's own processor time, in milliseconds. */
struct moment {
    double wall, processor;
};

static inline double clock_ms(clockid_t clock)
{
    struct timespec t;
    clock_gettime(clock, &t);
    return (double)t.tv_sec * 1e3 + (double)t.tv_nsec / 1e6;
}

static inline struct moment start(void)
{
    struct moment m;
    m.processor = clock_ms(CLOCK_PROCESS_CPUTIME_ID);
    m.wall = clock_ms(CLOCK_MONOTONIC);
    return m;
}

static inline void print_time(const char *name, struct moment from)
{
    const double wall = clock_ms(CLOCK_MONOTONIC), processor = clock_ms(CLOCK_PROCESS_CPUTIME_ID);
    printf("time %s %.6f %.6f\n", name, wall - from.wall, processor - from.processor);
}

static inline void print_number(const char *name, uint64_t n) { printf("number %s %" PRIu64 "\n", name, n); }

/* One step of the sum that each reader takes while the clock runs. */
static inline uint64_t plain(int32_t x, int32_t y, int32_t z, uint32_t level, uint32_t value)
{
    return (uint64_t)(int64_t)x + (uint64_t)(int64_t)y + (uint64_t)(int64_t)z + level + value;
}

/* One step of the sum that is taken once: it also tells records apart whose fields are exchanged among each other. */
static inline uint64_t mixed(int32_t x, int32_t y, int32_t z, uint32_t level, uint32_t value)
{
    uint64_t h = (uint64_t)(int64_t)x * 0x9e3779b97f4a7c15u;
    h = (h ^ h >> 29) + (uint64_t)(int64_t)y * 0xc2b2ae3d27d4eb4fu;
    h = (h ^ h >> 31) + (uint64_t)(int64_t)z * 0x165667b19e3779f9u;
    h = (h ^ h >> 30) + ((uint64_t)level << 32 | value) * 0xd6e8feb86659fd93u;
    return (h ^ h >> 32) * 0xbf58476d1ce4e5b9u;
}

#endif
