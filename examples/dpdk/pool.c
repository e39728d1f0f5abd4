/* Makes the pool of mbufs, and looks whether all are back. This is C over DPDK, and no part of what is proved. */
#include "pool.h"
#include "scheduler.h"
#include "told.h"

#include <inttypes.h>
#include <rte_errno.h>
#include <rte_lcore.h>
#include <rte_mempool.h>

/* How many mbufs a core keeps at hand. It gives some back once it has half as many more. */
enum { AT_HAND = 256 };

struct rte_mempool *open_pool(uint64_t frames) {
    uint64_t mbufs = frames + rte_lcore_count() * (uint64_t)(AT_HAND * 3 / 2 + 2 * BURST);
    if (mbufs > UINT32_MAX)
        stop("there may be %" PRIu64 " frames inside, which is too many", frames);
    int socket = (int)rte_socket_id();
    struct rte_mempool *pool = rte_pktmbuf_pool_create("frames", (unsigned)mbufs, AT_HAND, 0, RTE_MBUF_DEFAULT_BUF_SIZE, socket);
    if (!pool)
        stop("no pool of %" PRIu64 " mbufs: %s", mbufs, rte_strerror(rte_errno));
    return pool;
}

/* Marks of mbufs, in a field that nothing else uses any more. */
enum { UNSEEN, SEEN };

static void forget(struct rte_mempool *pool, void *nothing, void *mbuf, unsigned number) {
    (void)pool, (void)nothing, (void)number;
    ((struct rte_mbuf *)mbuf)->dynfield1[0] = UNSEEN;
}

/* Has all mbufs that cores keep at hand go back. */
static void gather(struct rte_mempool *pool) {
    for (unsigned lcore = 0; lcore < RTE_MAX_LCORE; lcore++)
        rte_mempool_cache_flush(rte_mempool_default_cache(pool, lcore), pool);
}

/* Takes out as many mbufs as there are, and returns how many different ones that gives. */
static unsigned count_different(struct rte_mempool *pool) {
    unsigned different = 0;
    void *mbuf;
    rte_mempool_obj_iter(pool, forget, NULL);
    for (unsigned i = 0; i < pool->size && rte_mempool_get(pool, &mbuf) == 0; i++) {
        uint32_t *mark = &((struct rte_mbuf *)mbuf)->dynfield1[0];
        different += *mark == UNSEEN;
        *mark = SEEN;
    }
    return different;
}

int close_pool(struct rte_mempool *pool) {
    gather(pool);
    unsigned back = rte_mempool_avail_count(pool), all = pool->size, different = count_different(pool);
    if (back != all)
        complain("%u of %u mbufs aren't back in their pool", all - back, all);
    else if (different != all)
        complain("%u of %u mbufs aren't back in their pool, and others are back twice", all - different, all);
    rte_mempool_free(pool);
    return back == all && different == all;
}
