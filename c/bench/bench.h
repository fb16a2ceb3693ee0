/*
 * bench.h: what the benches share: the clock, calls that must be done, and rows of a table with a column for each way in
 * which the calls are made.
 */
#ifndef BENCH_H
#define BENCH_H

#include "vervainfile.h"

#include <stdio.h>
#include <stdlib.h>
#include <time.h>

/* The ways, in the order of their columns, and of how many runs the least is taken. */
enum { PROVED, PLAIN, PROVED_CHECKED, PLAIN_CHECKED, WAYS, ROUNDS = 9 };

static const char *const WAY_NAMES[WAYS] = {"proved", "plain C", "proved, checked", "plain C, checked"};

static inline double seconds(void)
{
    struct timespec now;
    clock_gettime(CLOCK_PROCESS_CPUTIME_ID, &now);
    return (double)now.tv_sec + (double)now.tv_nsec / 1e9;
}

static inline void must(uint32_t status)
{
    if (status != VF_OK)
        abort();
}

static inline void print_head(const char *what, const char *first)
{
    printf("Microseconds of %s, the least of %d runs.\n\n| %s |", what, (int)ROUNDS, first);
    for (int way = 0; way < WAYS; way++)
        printf(" %s |", WAY_NAMES[way]);
    printf(" proved / plain |\n|---|");
    for (int i = 0; i < WAYS + 1; i++)
        printf("---|");
    printf("\n");
}

/* Ends a row, whose first cell is printed, with the times of its ways. */
static inline void print_times(const double *least)
{
    for (int way = 0; way < WAYS; way++)
        printf(" %.3f |", least[way]);
    printf(" %.2f |\n", least[PROVED] / least[PLAIN]);
    fflush(stdout);
}

#endif
