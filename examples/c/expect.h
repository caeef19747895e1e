/* The steps of a test program: each prints what it saw, and ends the program with status 1 where that is not as it
 * ought to be. */
#ifndef EXPECT_H
#define EXPECT_H

#include <inttypes.h>
#include <stdio.h>
#include <stdlib.h>
#include <string.h>

/* What an output is filled with, to see what a call writes. */
#define UNTOUCHED 0xA5

static void expect(const char *step, int64_t answer, int64_t expected)
{
    printf("  %-52s %6" PRId64 "\n", step, answer);
    if (answer != expected) {
        printf("mismatch: expected %" PRId64 "\n", expected);
        exit(1);
    }
}

static void expect_same(const char *step, const void *a, const void *b, size_t length)
{
    printf("  %-52s %6s\n", step, memcmp(a, b, length) == 0 ? "same" : "differs");
    if (memcmp(a, b, length) != 0) {
        exit(1);
    }
}

/* No byte of a buffer was written from a place on. */
static void expect_untouched(const char *step, const uint8_t *buffer, size_t from, size_t length)
{
    for (size_t i = from; i < length; i++) {
        if (buffer[i] != UNTOUCHED) {
            printf("  %s: byte %zu was written\n", step, i);
            exit(1);
        }
    }
    printf("  %-52s %6s\n", step, "kept");
}

#endif
