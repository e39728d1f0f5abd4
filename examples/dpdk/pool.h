/* The pool of mbufs. This is C over DPDK, and no part of what is proved. */
#ifndef POOL_H
#define POOL_H

#include <rte_mbuf.h>

/* Makes a pool of so many mbufs for frames, and as many more as the cores may keep at hand. Stops if it can't. */
struct rte_mempool *open_pool(uint64_t frames);

/* Frees a pool that nobody uses any more. Returns whether each of its mbufs is back, once, and tells it if not. */
int close_pool(struct rte_mempool *pool);

#endif
