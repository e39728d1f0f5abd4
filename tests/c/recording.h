/* Writes the record of what a program of the tests does to a file. It stands outside what is proved. */
#ifndef RECORDING_H
#define RECORDING_H

#include "clickpull.h"

#include <stdio.h>

/* The file, which is null if none is wanted, and a buffer that is long enough for the lines of one call. */
static FILE *recorded;
static char recorded_lines[128 * CLK_MOST_LINE];
static clk_record record = {recorded_lines, sizeof recorded_lines, 0, 0};

static inline void write_record(void) {
    if (recorded)
        fwrite(record.text, 1, record.used, recorded);
    record.used = 0;
}

/* Whether a call that adds lines has to be made again: the buffer was full. A record that can't have them ends before them. */
static inline int is_wanted_again(clk_status status) {
    if (status == CLK_AT_END)
        record.lines = CLK_MOST_LINES;
    if (status == CLK_FULL)
        write_record();
    return status == CLK_FULL;
}

/* Adds the lines of a call that returns a status. */
#define RECORD(CALL)                                                                                                                       \
    do {                                                                                                                                   \
    } while (is_wanted_again(CALL))

/* The pulls of a call for up to `count` of them that emitted `given` packets. */
static inline void record_pulls(uint16_t device, uint64_t moment, size_t given, size_t count) {
    RECORD(clk_record_pulls(&record, device, moment, given < count ? given + 1 : given));
}

/* The pulls of a drain, one at each moment after `before`, up to the device's latest one. */
static inline void record_drained(uint16_t device, uint64_t before, uint64_t latest) {
    for (uint64_t moment = before + 1; moment <= latest; moment++)
        record_pulls(device, moment, 0, 1);
}

/* Writes what is left, and closes the file. */
static inline void end_record(void) {
    write_record();
    if (recorded)
        fclose(recorded);
}

#endif
