/* The report of a run. This is C and no part of what is proved. */
#ifndef ACCOUNTS_H
#define ACCOUNTS_H

#include "scheduler.h"

#include <stdio.h>

/* What a run came to, beside the accounts of its senders. */
struct totals {
    uint64_t came, left_out, missed, transmitted, unsent;
    double seconds, scheduling; /* how long it took, and for how long of that the scheduling core had a processor */
};

/* Writes a line for each of so many senders, and one for all. */
void report(FILE *file, const struct account *accounts, uint32_t senders, const struct totals *totals);

#endif
