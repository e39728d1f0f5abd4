/* The report: how many of each sender's frames were sent and lost. This is C and no part of what is proved. */
#ifndef REPORT_H
#define REPORT_H

#include "clickpull.h"

#include <stdio.h>

/* Writes a line for each sender, and how many frames were left out. `slowest` has for each sender's number the longest that one of its
 * frames was on its way, in microseconds. */
void report(FILE *file, const clk_router *router, const uint64_t *slowest, uint64_t left_out);

#endif
