/* The receive cores: they sort frames to senders, and hand them over. This is C over DPDK, and no part of what is proved. */
#ifndef RECEIVE_H
#define RECEIVE_H

#include "options.h"
#include "scheduler.h"
#include "table.h"

#include <stdatomic.h>

/* What all receive cores share. */
struct reception {
    const struct options *options;
    const struct table *table;
    struct scheduler *scheduler;
    uint16_t port;
    atomic_int is_over;    /* set to have the cores end */
    atomic_uint receiving; /* how many haven't ended */
    atomic_ullong came;    /* how many frames; counted at the end of a core, and before only if --frames is given */
    atomic_ullong left_out; /* how many frames fit no line of the table, or are no IP; counted at the end of a core */
};

/* Starts the receive cores, all but this one: queue Q is that of core Q modulo their number. Stops if there is none. */
void start_receiving(struct reception *reception);

/* Waits until all of them have ended. */
void finish_receiving(void);

#endif
