/* Reads the rate of a link. This is C and no part of what is proved. */
#include "rate.h"

#include <errno.h>
#include <stdlib.h>
#include <string.h>

/* How many bits a unit stands for; 0 if it is no unit. */
static uint64_t unit_of(const char *text) {
    static const struct {
        const char *name;
        uint64_t bits;
    } units[] = {{"", 1}, {"k", 1000}, {"M", 1000000}, {"G", 1000000000}};
    for (size_t i = 0; i < sizeof units / sizeof *units; i++)
        if (strcmp(text, units[i].name) == 0)
            return units[i].bits;
    return 0;
}

int read_rate(const char *text, uint64_t *rate) {
    char *rest;
    // strtoull takes blanks and a sign before the digits.
    if (*text < '0' || *text > '9')
        return 0;
    errno = 0;
    unsigned long long number = strtoull(text, &rest, 10);
    uint64_t unit = unit_of(rest);
    if (errno != 0 || number == 0 || unit == 0 || number > UINT64_MAX / unit)
        return 0;
    *rate = number * unit;
    return 1;
}
