/* The table that sorts packets to senders. This is C and no part of what is proved. */
#ifndef TABLE_H
#define TABLE_H

#include "ends.h"

/* A line: packets with an end whose address begins with these bits, and whose port is one of these, belong to the sender. */
struct line {
    uint16_t sender;
    uint8_t address[16];
    size_t size; /* of the address; 0 for any */
    unsigned bits;
    uint16_t first_port, last_port;
};

/* A table, of any length: `room` is how many lines have memory. */
struct table {
    struct line *lines;
    size_t length, room;
};

/* Reads a table into an empty one. Returns 0; the number of the first line that is none, from 1; or -1 if the file can't be read or memory
 * is refused, which errno tells. */
int read_table(const char *path, struct table *table);

/* Frees the lines. */
void free_table(struct table *table);

/* One more than the greatest sender of a table; 0 if it has no lines. */
uint32_t senders_of(const struct table *table);

/* The sender of the first line that a packet fits; -1 where it fits none. It looks at one line after the other. */
int sender_of(const struct table *table, const struct ends *ends);

#endif
