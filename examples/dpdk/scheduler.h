/* What stands between the receive cores and the link. This is C over DPDK, and no part of what is proved.
 *
 * scheduler.c has these calls over this library, with an inlet for each receive queue and sender. bench/dpdk/rte_sched.c has them over
 * rte_ring and rte_sched of DPDK, to compare the two in one program. */
#ifndef SCHEDULER_H
#define SCHEDULER_H

#include "options.h"
#include "table.h"

#include <rte_mbuf.h>

/* How many frames a burst has at most. */
enum { BURST = 64 };

struct scheduler;

/* What became of the frames of a sender, from all receive queues. */
struct account {
    uint64_t sent;     /* sorted to it */
    uint64_t overrun;  /* not taken over, since the inlet was full */
    uint64_t accepted; /* by its queue */
    uint64_t refused;  /* by its queue, which was full */
    uint64_t evicted;  /* from its queue, which was full */
    uint64_t emitted;
    uint64_t left;  /* still inside */
    uint64_t bytes; /* emitted */
};

/* Opens a scheduler for the senders of a table. Stops if the tree, or what else it needs, isn't right. */
struct scheduler *open_scheduler(const struct options *options, const struct table *table);

/* How many frames are inside at most. */
uint64_t most_inside(const struct scheduler *scheduler);

/* Takes over frames of a receive queue, each with its sender, on the core of that queue. It frees those for which there is no room. Returns
 * 0 if a sender can't send any more frames, and else 1. */
int hand_over(struct scheduler *scheduler, uint16_t queue, struct rte_mbuf **frames, const uint16_t *senders, unsigned count);

/* Says, on the core of a receive queue, that it has no more frames. */
void end_queue(struct scheduler *scheduler, uint16_t queue);

/* All calls below are the scheduling core's. */

/* Queues frames that were handed over, and frees those that are refused or evicted. */
void queue_frames(struct scheduler *scheduler);

/* Emits at most `count` frames, no more than BURST, at a moment in ticks. Returns how many. */
unsigned pull_frames(struct scheduler *scheduler, uint64_t moment, struct rte_mbuf **frames, unsigned count);

/* Whether each receive queue has ended, and all its frames were queued. */
int has_ended(struct scheduler *scheduler);

/* Whether no frame is queued. */
int is_drained(struct scheduler *scheduler);

/* Fills in the account of each sender of the table, by its number. */
void read_accounts(const struct scheduler *scheduler, struct account *accounts);

/* Frees the frames that are inside, and the scheduler. */
void close_scheduler(struct scheduler *scheduler);

#endif
