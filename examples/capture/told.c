/* Tells what is wrong. This is C and no part of what is proved. */
#include "told.h"

#include <errno.h>
#include <stdarg.h>
#include <stdlib.h>
#include <string.h>
#include <unistd.h>

__attribute__((format(printf, 1, 0))) static void tell(const char *format, va_list rest) {
    fprintf(stderr, "%s: ", told_by);
    vfprintf(stderr, format, rest);
    fprintf(stderr, "\n");
}

void complain(const char *format, ...) {
    va_list rest;
    va_start(rest, format);
    tell(format, rest);
    va_end(rest);
}

void stop(const char *format, ...) {
    va_list rest;
    va_start(rest, format);
    tell(format, rest);
    va_end(rest);
    exit(1);
}

/* Some file systems report what they couldn't store only when a file is closed. pcap_dump_close returns nothing, so a duplicate is closed,
 * for which the system reports that as well. */
static int is_closed_well(FILE *file) {
    int duplicate = dup(fileno(file));
    return duplicate >= 0 && close(duplicate) == 0;
}

void stop_unless_stored(FILE *file, const char *name) {
    if (fflush(file) != 0 || ferror(file) || !is_closed_well(file))
        stop("%s: %s", name, strerror(errno));
}
