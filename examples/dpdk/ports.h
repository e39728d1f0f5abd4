/* The ports: one to receive from, and one to transmit to, which may be the same. This is C over DPDK, and no part of what is proved. */
#ifndef PORTS_H
#define PORTS_H

#include "scheduler.h"

/* What is transmitted. The frames that the port didn't take yet wait, and go before all others. */
struct outlet {
    uint16_t port;
    unsigned first, count; /* of those that wait */
    struct rte_mbuf *frames[BURST];
    uint64_t transmitted, lost;
};

struct ports {
    uint16_t in, out;
    struct rte_mempool *pool;
    struct outlet outlet;
};

/* Starts the ports, with mbufs for as many frames as may be `inside` and as the ports hold. Stops if it can't. Port 0 receives, at so many
 * queues. Port 1 transmits, or port 0 if there is no other. */
void open_ports(struct ports *ports, uint16_t queues, uint64_t inside);

/* Transmits the frames that wait, as far as the port takes them. Returns whether none waits any more. */
int flush(struct outlet *outlet);

/* Frees the frames that wait, and counts them as lost. */
void give_up(struct outlet *outlet);

/* How many frames the device dropped since nobody fetched them or it got no mbuf. */
uint64_t missed(const struct ports *ports);

/* Stops and closes the ports. Returns whether each mbuf is back in the pool, once, and tells it if not. */
int close_ports(struct ports *ports);

#endif
