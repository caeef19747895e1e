/*
 * What the benchmarks share: the best time of a call, and a table of ratios.
 */
#ifndef TIMING_H
#define TIMING_H

#include <stdint.h>
#include <stdio.h>
#include <stdlib.h>
#include <time.h>

enum {
    ROUNDS = 25,
    CALLS = 40 /* in a round */
};

static void fail(const char *what)
{
    fprintf(stderr, "bench: %s\n", what);
    exit(2);
}

static double now(void)
{
    struct timespec t;

    clock_gettime(CLOCK_MONOTONIC, &t);
    return (double)t.tv_sec * 1e6 + (double)t.tv_nsec / 1e3;
}

static double least(double a, double b)
{
    return a < b ? a : b;
}

/* The microseconds of one call in a round. */
static double round_of(void (*once)(uint32_t), uint32_t which)
{
    double start = now();

    for (int i = 0; i < CALLS; i++) {
        once(which);
    }
    return (now() - start) / CALLS;
}

static void titles(void)
{
    printf("\n%-20s %8s   %-24s %8s   %5s   %5s\n", "what", "us", "against", "us", "ratio", "bar");
}

static int missed;

/* A bar of 0 is none. */
static void line(const char *what, double time, const char *against, double other, double bar)
{
    double ratio = time / other;

    printf("%-20s %8.1f   %-24s %8.1f   %5.2f", what, time, against, other, ratio);
    if (bar > 0) {
        printf("   %5.2f   %s", bar, ratio <= bar ? "met" : "MISSED");
        missed |= ratio > bar;
    }
    putchar('\n');
}

#endif
