/* What the words of the command ask for. This is C and no part of what is proved. */
#ifndef OPTIONS_H
#define OPTIONS_H

#include <stdint.h>

/* How many receive queues there may be. */
enum { MOST_QUEUES = 64 };

struct options {
    const char *tree, *table; /* paths */
    const char *record;       /* where the record goes; NULL if none is wanted */
    uint64_t rate;            /* of the link, in bits a second; 0 if nothing holds it back */
    uint64_t frames;          /* end once so many frames have come; 0 for never */
    uint64_t seconds;         /* end after so many seconds; 0 for never */
    uint64_t tick;            /* microseconds in a tick */
    uint32_t room;            /* of each inlet, in frames */
    uint16_t queues;          /* receive queues */
    int is_once;              /* end once no receive queue gives a frame */
    int is_held;              /* leave frames in their inlets while their queue is full, so that none is refused or evicted */
    int is_timed;             /* hold each frame until the time that its capture has for it */
};

/* Reads the words behind those of DPDK. Stops if they ask for nothing that can be done. */
void read_options(int count, char **words, struct options *options);

#endif
