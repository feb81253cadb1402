/* Times of single calls: their median, their 99th percentile and the worst. */
#ifndef BENCH_SAMPLES_H
#define BENCH_SAMPLES_H

#include <stdio.h>
#include <stdlib.h>

struct samples {
    double *seconds;
    size_t count, most;
};

static inline struct samples new_samples(size_t most) {
    struct samples samples = {malloc(most * sizeof(double)), 0, most};
    if (!samples.seconds)
        exit(1);
    return samples;
}

static inline void add_sample(struct samples *samples, double seconds) {
    if (samples->count < samples->most)
        samples->seconds[samples->count++] = seconds;
}

static inline int shorter(const void *one, const void *other) {
    double a = *(const double *)one, b = *(const double *)other;
    return (a > b) - (a < b);
}

/* Writes the three, in nanoseconds, as a line, and gives the memory back. */
static inline void print_samples(struct samples *samples) {
    size_t count = samples->count;
    if (count == 0) {
        printf("none\n");
    } else {
        qsort(samples->seconds, count, sizeof(double), shorter);
        printf("%.0f %.0f %.0f\n", samples->seconds[count / 2] * 1e9,
               samples->seconds[count * 99 / 100] * 1e9, samples->seconds[count - 1] * 1e9);
    }
    free(samples->seconds);
}

#endif
