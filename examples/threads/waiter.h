/* Sleeping until another thread has something. This is C and no part of what is proved.
 *
 * The library never waits. A consumer that finds nothing sleeps by means of its own, and producers wake it. The danger is a lost wake-up:
 * the consumer finds nothing, a producer puts a packet and wakes nobody, and then the consumer sleeps. In this order none is lost:
 *
 *     consumer                                producer
 *
 *     waiter_prepare(waiter);                 clk_inlet_offer(..);
 *     if (it takes a packet, or all ended)    waiter_notify(waiter);
 *         waiter_cancel(waiter);
 *     else
 *         waiter_wait(waiter, -1);
 *
 * waiter_prepare sets a flag, and then the consumer looks once more. waiter_notify reads the flag after the packet was put. On each side a
 * sequentially consistent fence stands between the two steps. So the consumer sees the packet, or the producer sees the flag.
 *
 * No producer wakes the consumer for packets that it has taken and not yet pulled. While there are any (clk_live_drained isn't CLK_OK), it
 * sleeps no longer than to its next pull.
 *
 * A producer that waits while its inlet is full does the same with a waiter of its own: it prepares, offers once more, and waits. The
 * consumer takes, and then notifies (tests/c/sleeping.c).
 *
 * One thread waits, and any number of threads notify. waiter_cond.c waits on a condition variable. waiter_eventfd.c waits on an eventfd of
 * Linux. Link one of them. */
#ifndef WAITER_H
#define WAITER_H

#include <stdbool.h>

struct waiter;

/* Makes a waiter. NULL: memory or a descriptor is missing. */
struct waiter *waiter_open(void);

/* Frees it. No thread waits or notifies any more. */
void waiter_close(struct waiter *waiter);

/* Says that this thread is about to wait. It looks for work once more, and then calls waiter_cancel or waiter_wait. */
void waiter_prepare(struct waiter *waiter);

/* Says that this thread does not wait after all. */
void waiter_cancel(struct waiter *waiter);

/* Waits until another thread notifies, or for so many milliseconds; without end if that is negative. Returns false if the time is up. It
 * may return true though nobody has notified since waiter_prepare: look for work again in any case. */
bool waiter_wait(struct waiter *waiter, int milliseconds);

/* Wakes the thread that waits or is about to. Costs a fence and a read if there is none. Call it after a packet or a batch of packets was
 * put, and after an inlet was closed. */
void waiter_notify(struct waiter *waiter);

#endif
