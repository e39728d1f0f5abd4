/* What is told of errors. This is C and no part of what is proved. */
#ifndef TOLD_H
#define TOLD_H

#include <stdio.h>

/* The program's name, with which its messages begin. Each program defines it. */
extern const char told_by[];

/* Writes a message to standard error. */
__attribute__((format(printf, 1, 2))) void complain(const char *format, ...);

/* Writes a message to standard error, and ends the program with status 1. */
__attribute__((noreturn, format(printf, 1, 2))) void stop(const char *format, ...);

/* Stops if not all that was written to this stream is stored. */
void stop_unless_stored(FILE *file, const char *name);

#endif
