/*
 * What the drivers of calls without a table share: numbers by chance, and rows
 * of times. Every side is timed in every turn, so that a slow while of the
 * machine meets all.
 */
#ifndef TIMING_H
#define TIMING_H

#include <math.h>
#include <stdint.h>
#include <stdio.h>
#include <time.h>

/* Calls in a round. */
#define ASKED 4096
#define TURNS 20
#define ROUNDS 50

/* What is measured: a round of calls, whose answers are added to the sink. */
typedef void (*side)(void);

static volatile uint64_t sink;

static uint64_t random_state = 88172645463325252u;

static uint32_t random_up_to(uint32_t most)
{
    random_state ^= random_state << 13;
    random_state ^= random_state >> 7;
    random_state ^= random_state << 17;
    return (uint32_t)((random_state >> 11) % ((uint64_t)most + 1));
}

static double now(void)
{
    struct timespec time;
    clock_gettime(CLOCK_MONOTONIC, &time);
    return (double)time.tv_sec * 1e9 + (double)time.tv_nsec;
}

/* The least time of a round, in nanoseconds. */
static double least_of(side run)
{
    double least = INFINITY;
    for (int round = 0; round < ROUNDS; round++) {
        double begun = now();
        run();
        least = fmin(least, now() - begun);
    }
    return least;
}

/* The rest of a table's row: nanoseconds a call, at most eight sides. */
static void print_times(const side *sides, size_t count)
{
    double least[8];
    for (size_t i = 0; i < count; i++)
        least[i] = INFINITY;
    for (int turn = 0; turn < TURNS; turn++)
        for (size_t i = 0; i < count; i++)
            least[i] = fmin(least[i], least_of(sides[i]));
    for (size_t i = 0; i < count; i++)
        printf(" %.0f |", least[i] / ASKED);
    printf("\n");
}

#endif
