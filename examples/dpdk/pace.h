/* The pace of the link. This is C over DPDK, and no part of what is proved. */
#ifndef PACE_H
#define PACE_H

#include <rte_mbuf.h>

/* A link of a rate: how many bytes it may send now, which is below 0 while it has the latest frame, and when that was so, by the TSC. */
struct pace {
    double bytes_a_cycle; /* 0 if nothing holds the link back */
    double bytes;
    uint64_t latest;
};

/* Sets the rate of a link, in bits a second, from a time of the TSC on; 0 if nothing holds it back. */
void set_pace(struct pace *pace, uint64_t rate, uint64_t now);

/* How many frames may be sent at a time of the TSC, BURST at most: none before the link is through with the one before, and one more than
 * are sure to be through by now, as long as none has more than 1,518 bytes. */
unsigned frames_due(struct pace *pace, uint64_t now);

/* Counts frames that are sent, of `most` that might have been. A link that has nothing to send doesn't save up time for later. */
void count_sent(struct pace *pace, struct rte_mbuf *const *frames, unsigned count, unsigned most);

#endif
