/* The record of a run, in a file. This is C and no part of what is proved. */
#ifndef RECORDING_H
#define RECORDING_H

#include "clickpull.h"

#include <stdio.h>

/* Where the record goes: nowhere, if the name is NULL. */
struct recording {
    const char *name;
    FILE *file;
    clk_record record;
    char lines[16384];
    int is_full; /* whether it has all the lines that it may have */
};

/* Makes the file. Stops if it can't. */
void open_recording(struct recording *recording, const char *name);

/* Adds the lines of packets that were taken. Stops, as all calls here, if they can't be written. */
void record_taken(struct recording *recording, const clk_taken *taken, size_t count);

/* Adds the lines of a call for up to `count` pulls of device 0, of which `given` emitted a packet. */
void record_pulls(struct recording *recording, uint64_t moment, size_t given, size_t count);

/* Ends the record, with the line for the report if nothing is left inside, and closes the file. */
void close_recording(struct recording *recording, int is_drained);

#endif
