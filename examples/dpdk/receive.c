/* Receives bursts, sorts their frames and hands them over. This is C over DPDK, and no part of what is proved. */
#include "receive.h"
#include "ends.h"
#include "told.h"

#include <limits.h>
#include <rte_cycles.h>
#include <rte_ethdev.h>
#include <rte_lcore.h>
#include <rte_mbuf_dyn.h>

/* A receive core. Its queues are those from `first` on, `apart` from each other. */
struct core {
    struct reception *reception;
    uint16_t first, apart;
    uint64_t came, left_out;
    int64_t offset; /* what to add to the time of a frame, in microseconds, for that at which it is due; 0 before the first one */
};

static struct core cores[MOST_QUEUES];

static int sender_of_frame(const struct table *table, const struct rte_mbuf *frame) {
    struct ends ends;
    if (!read_ends(ETHERNET, rte_pktmbuf_mtod(frame, const uint8_t *), rte_pktmbuf_data_len(frame), &ends))
        return -1;
    return sender_of(table, &ends);
}

/* Keeps the frames that have a sender, which it fills in, and frees the others. Returns how many are kept. */
static unsigned sort(const struct table *table, struct rte_mbuf **frames, unsigned count, uint16_t *senders) {
    unsigned kept = 0;
    for (unsigned i = 0; i < count; i++)
        rte_prefetch0(rte_pktmbuf_mtod(frames[i], void *));
    for (unsigned i = 0; i < count; i++) {
        int sender = sender_of_frame(table, frames[i]);
        if (sender < 0) {
            rte_pktmbuf_free(frames[i]);
            continue;
        }
        senders[kept] = (uint16_t)sender;
        frames[kept++] = frames[i];
    }
    return kept;
}

static void end_all(struct reception *reception) {
    atomic_store_explicit(&reception->is_over, 1, memory_order_relaxed);
}

static int is_over(const struct reception *reception) {
    return atomic_load_explicit(&reception->is_over, memory_order_relaxed);
}

/* Sorts frames of a queue, and hands them over. */
static void let_in(struct core *core, uint16_t queue, struct rte_mbuf **frames, unsigned count) {
    uint16_t senders[BURST];
    struct reception *all = core->reception;
    unsigned kept = sort(all->table, frames, count, senders);
    core->came += count;
    core->left_out += count - kept;
    if (!hand_over(all->scheduler, queue, frames, senders, kept) && !is_over(all)) {
        complain("a sender has sent as many frames as it may, and the run ends");
        end_all(all);
    }
    if (all->options->frames != 0 && atomic_fetch_add(&all->came, count) + count >= all->options->frames)
        end_all(all);
}

static int64_t microseconds(void) {
    return (int64_t)((double)rte_rdtsc() * 1e6 / (double)rte_get_tsc_hz());
}

/* Waits until the moment that the capture has for a frame, counted from its first one. */
static void wait_for(struct core *core, const struct rte_mbuf *frame, size_t field) {
    int64_t time = (int64_t)*RTE_MBUF_DYNFIELD(frame, field, const rte_mbuf_timestamp_t *);
    if (core->offset == 0)
        core->offset = microseconds() - time;
    while (microseconds() < time + core->offset && !is_over(core->reception))
        rte_pause();
}

/* Lets each frame in at its time. */
static void let_in_timed(struct core *core, uint16_t queue, struct rte_mbuf **frames, unsigned count) {
    int field = rte_mbuf_dynfield_lookup(RTE_MBUF_DYNFIELD_TIMESTAMP_NAME, NULL);
    if (field < 0)
        stop("--timed: the device has no time for a frame");
    for (unsigned i = 0; i < count; i++) {
        wait_for(core, frames[i], (size_t)field);
        let_in(core, queue, &frames[i], 1);
    }
}

/* Receives a burst at each queue of a core, and returns how many frames came. */
static unsigned receive_burst(struct core *core) {
    struct rte_mbuf *frames[BURST];
    const struct options *options = core->reception->options;
    unsigned came = 0;
    for (uint16_t queue = core->first; queue < options->queues; queue = (uint16_t)(queue + core->apart)) {
        unsigned count = rte_eth_rx_burst(core->reception->port, queue, frames, BURST);
        if (count > 0)
            (options->is_timed ? let_in_timed : let_in)(core, queue, frames, count);
        came += count;
    }
    return came;
}

static int receive(void *of) {
    struct core *core = of;
    struct reception *all = core->reception;
    while (!is_over(all))
        if (receive_burst(core) == 0 && all->options->is_once)
            break;
    for (uint16_t queue = core->first; queue < all->options->queues; queue = (uint16_t)(queue + core->apart))
        end_queue(all->scheduler, queue);
    if (all->options->frames == 0)
        atomic_fetch_add(&all->came, core->came);
    atomic_fetch_add(&all->left_out, core->left_out);
    atomic_fetch_sub(&all->receiving, 1);
    return 0;
}

/* Starts a receive core on a core of DPDK's. */
static void start_core(struct reception *reception, unsigned lcore, uint16_t number, uint16_t apart) {
    cores[number] = (struct core){.reception = reception, .first = number, .apart = apart};
    if (rte_eal_remote_launch(receive, &cores[number], lcore) != 0)
        stop("core %u: it doesn't start", lcore);
}

void start_receiving(struct reception *reception) {
    unsigned workers = rte_lcore_count() - 1, lcore = UINT_MAX;
    uint16_t apart = (uint16_t)RTE_MIN(workers, (unsigned)reception->options->queues);
    if (apart == 0)
        stop("one core schedules, and there is no other to receive: name two or more by -l");
    atomic_store(&reception->receiving, apart);
    for (uint16_t number = 0; number < apart; number++) {
        lcore = rte_get_next_lcore(lcore, 1, 0);
        start_core(reception, lcore, number, apart);
    }
}

void finish_receiving(void) {
    rte_eal_mp_wait_lcore();
}
