/* What a column of 4,096 products costs from C: nanoseconds a pair, the best of many calls. */
#define _POSIX_C_SOURCE 199309L
#include "jorumrain.h"

#include <stdio.h>
#include <time.h>

enum { N = 16, ES = 2, LENGTH = JORUMRAIN_LONGEST_COLUMN, ROUNDS = 400 };

static uint64_t left[LENGTH], right[LENGTH], lent[LENGTH];

/* The same columns in all three languages: positive ranges with closed ends. */
static uint64_t word(uint64_t start, uint64_t width) {
    return (2 * start) << (N + 1) | 2 * (start + width);
}

static double now(void) {
    struct timespec t;
    clock_gettime(CLOCK_MONOTONIC, &t);
    return 1e9 * (double)t.tv_sec + (double)t.tv_nsec;
}

int main(void) {
    for (uint64_t i = 0; i < LENGTH; i++) {
        left[i] = word(1 + 7919 * i % 30000, i % 97);
        right[i] = word(1 + 6007 * i % 30000, i % 89);
    }
    double best = 1e300;
    for (int round = 0; round < ROUNDS; round++) {
        double start = now();
        JorumrainSheetAnswer answer = jorumrain_columns_combine(
            N, ES, JORUMRAIN_MULTIPLY, left, LENGTH, right, LENGTH, 0, lent, LENGTH);
        double taken = now() - start;
        if (answer.count != LENGTH) {
            return 1;
        }
        best = taken < best ? taken : best;
    }
    printf("%.2f\n", best / LENGTH);
    return 0;
}
