/* How long a loop takes. This is C and no part of what is proved. */
#ifndef MEASURE_H
#define MEASURE_H

#include <stdint.h>
#include <stdio.h>
#include <time.h>

/* Of so many rounds the fastest counts: the others had to share the processor. */
enum { ROUNDS = 5, BURST = 32 };

static inline double seconds(void) {
    struct timespec now;
    clock_gettime(CLOCK_MONOTONIC, &now);
    return (double)now.tv_sec + (double)now.tv_nsec * 1e-9;
}

/* Nanoseconds a packet of what `loop` does with so many of them, at a thing of the caller's. */
static inline double nanoseconds(void (*loop)(void *at, uint64_t packets), void *at, uint64_t packets) {
    double least = 1e300;
    loop(at, packets / 10);
    for (int round = 0; round < ROUNDS; round++) {
        double start = seconds();
        loop(at, packets);
        double taken = (seconds() - start) * 1e9 / (double)packets;
        least = taken < least ? taken : least;
    }
    return least;
}

#endif
