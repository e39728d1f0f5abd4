/* The rate of a link. This is C and no part of what is proved. */
#ifndef RATE_H
#define RATE_H

#include <stdint.h>

/* Reads a rate: a number of bits a second, from 1 on, alone or with k, M or G behind it for 10^3, 10^6 or 10^9 of them. Returns 0 if the
 * text is none, or the rate is 2^64 or more. */
int read_rate(const char *text, uint64_t *rate);

#endif
