/* The scheduler of DPDK in place of this library's, in the program of examples/dpdk, to compare the two. This is C over DPDK, and no part
 * of what is proved.
 *
 * It doesn't read the tree. Sender 0 goes before all others: it has the highest traffic class of a pipe. Senders 1 to 4 share what it
 * leaves 4 : 2 : 1 : 1 by bytes: they have the queues of the lowest class. Each queue has room for 64 frames. A receive core writes a
 * frame's place in the pipe to its mbuf, and puts it into the rte_ring of its receive queue. */
#include "scheduler.h"
#include "told.h"

#include <inttypes.h>
#include <rte_errno.h>
#include <rte_malloc.h>
#include <rte_ring.h>
#include <rte_sched.h>
#include <stdio.h>

/* How many frames a dequeue asks for. With one pipe a dequeue of many takes longer for each frame than one of one. */
#ifndef AT_ONCE
#define AT_ONCE 1
#endif

enum { LOWEST = RTE_SCHED_TRAFFIC_CLASS_BE, MOST_SENDERS = 1 + RTE_SCHED_BE_QUEUES_PER_PIPE, QUEUE_ROOM = 64 };

/* In bytes a second: a rate that never holds a frame back. */
static const uint64_t RATE = 100000000000 / 8;

/* What a receive queue hands over, and counts of its senders. */
struct lane {
    struct rte_ring *ring;
    uint64_t sent[MOST_SENDERS], overrun[MOST_SENDERS];
} __rte_cache_aligned;

struct scheduler {
    struct rte_sched_port *port;
    struct lane lanes[MOST_QUEUES];
    uint32_t queues, senders;
    uint32_t next;   /* the ring that is looked at first */
    uint64_t queued; /* frames */
    uint32_t room;   /* of each ring */
};

static uint32_t class_of(uint32_t sender) {
    return sender == 0 ? 0 : LOWEST;
}

static uint32_t place_in_class(uint32_t sender) {
    return sender == 0 ? 0 : sender - 1;
}

static void need(int holds, const char *what) {
    if (!holds)
        stop("%s: %s", what, rte_strerror(rte_errno));
}

static struct rte_sched_port *open_port(void) {
    struct rte_sched_subport_profile_params profile = {.tb_rate = RATE, .tb_size = 1000000, .tc_period = 10};
    struct rte_sched_pipe_params pipe = {
        .tb_rate = RATE, .tb_size = 1000000, .tc_period = 10, .tc_ov_weight = 1, .wrr_weights = {4, 2, 1, 1}};
    struct rte_sched_subport_params subport = {
        .n_pipes_per_subport_enabled = 1, .pipe_profiles = &pipe, .n_pipe_profiles = 1, .n_max_pipe_profiles = 1};
    for (int i = 0; i < RTE_SCHED_TRAFFIC_CLASSES_PER_PIPE; i++) {
        profile.tc_rate[i] = pipe.tc_rate[i] = RATE;
        subport.qsize[i] = QUEUE_ROOM;
    }
    struct rte_sched_port_params port = {.name = "port",
                                         .rate = RATE,
                                         .mtu = 1518,
                                         .frame_overhead = RTE_SCHED_FRAME_OVERHEAD_DEFAULT,
                                         .n_subports_per_port = 1,
                                         .subport_profiles = &profile,
                                         .n_subport_profiles = 1,
                                         .n_max_subport_profiles = 1,
                                         .n_pipes_per_subport = 1};
    struct rte_sched_port *made = rte_sched_port_config(&port);
    need(made != NULL, "no port of rte_sched");
    need(rte_sched_subport_config(made, 0, &subport, 0) == 0, "no subport");
    need(rte_sched_pipe_config(made, 0, 0, 0) == 0, "no pipe");
    return made;
}

struct scheduler *open_scheduler(const struct options *options, const struct table *table) {
    struct scheduler *scheduler = rte_zmalloc("scheduler", sizeof *scheduler, 0);
    need(scheduler != NULL, "no memory");
    scheduler->queues = options->queues;
    scheduler->senders = senders_of(table);
    scheduler->room = rte_align32pow2(options->room * scheduler->senders);
    if (scheduler->senders > MOST_SENDERS)
        stop("%s: rte_sched is set up for senders 0 to %d here", options->table, MOST_SENDERS - 1);
    scheduler->port = open_port();
    for (uint32_t queue = 0; queue < scheduler->queues; queue++) {
        char name[RTE_RING_NAMESIZE];
        snprintf(name, sizeof name, "queue%u", queue);
        scheduler->lanes[queue].ring = rte_ring_create(name, scheduler->room, 0, RING_F_SP_ENQ | RING_F_SC_DEQ);
        need(scheduler->lanes[queue].ring != NULL, "no ring");
    }
    return scheduler;
}

uint64_t most_inside(const struct scheduler *scheduler) {
    return (uint64_t)scheduler->queues * scheduler->room + RTE_SCHED_QUEUES_PER_PIPE * QUEUE_ROOM;
}

int hand_over(struct scheduler *scheduler, uint16_t queue, struct rte_mbuf **frames, const uint16_t *senders, unsigned count) {
    struct lane *lane = &scheduler->lanes[queue];
    for (unsigned i = 0; i < count; i++) {
        rte_sched_port_pkt_write(scheduler->port, frames[i], 0, 0, class_of(senders[i]), place_in_class(senders[i]), RTE_COLOR_GREEN);
        lane->sent[senders[i]]++;
    }
    unsigned done = rte_ring_sp_enqueue_burst(lane->ring, (void **)frames, count, NULL);
    for (unsigned i = done; i < count; i++)
        lane->overrun[senders[i]]++;
    rte_pktmbuf_free_bulk(frames + done, count - done);
    return 1;
}

void end_queue(struct scheduler *scheduler, uint16_t queue) {
    (void)scheduler, (void)queue;
}

void queue_frames(struct scheduler *scheduler) {
    struct rte_mbuf *frames[BURST];
    unsigned count = 0;
    for (uint32_t i = 0; i < scheduler->queues && count < BURST; i++) {
        struct rte_ring *ring = scheduler->lanes[(scheduler->next + i) % scheduler->queues].ring;
        count += rte_ring_sc_dequeue_burst(ring, (void **)(frames + count), BURST - count, NULL);
    }
    scheduler->next = (scheduler->next + 1) % scheduler->queues;
    if (count > 0)
        scheduler->queued += (uint64_t)rte_sched_port_enqueue(scheduler->port, frames, count);
}

unsigned pull_frames(struct scheduler *scheduler, uint64_t moment, struct rte_mbuf **frames, unsigned count) {
    (void)moment;
    unsigned given = 0, wanted, got;
    do {
        wanted = RTE_MIN(count - given, (unsigned)AT_ONCE);
        got = (unsigned)rte_sched_port_dequeue(scheduler->port, frames + given, wanted);
        given += got;
    } while (got == wanted && given < count);
    scheduler->queued -= given;
    return given;
}

int has_ended(struct scheduler *scheduler) {
    for (uint32_t queue = 0; queue < scheduler->queues; queue++)
        if (!rte_ring_empty(scheduler->lanes[queue].ring))
            return 0;
    return 1;
}

int is_drained(struct scheduler *scheduler) {
    return scheduler->queued == 0;
}

/* The account of a sender. The bytes of frames that are left are taken to be as many as others have on average. */
static struct account account_of(const struct scheduler *scheduler, uint32_t sender) {
    struct rte_sched_queue_stats stats;
    uint16_t left;
    struct account it = {0};
    need(rte_sched_queue_read_stats(scheduler->port, class_of(sender) + place_in_class(sender), &stats, &left) == 0, "no statistics");
    for (uint32_t queue = 0; queue < scheduler->queues; queue++) {
        it.sent += scheduler->lanes[queue].sent[sender];
        it.overrun += scheduler->lanes[queue].overrun[sender];
    }
    it.accepted = stats.n_pkts;
    it.refused = stats.n_pkts_dropped;
    it.left = left;
    it.emitted = it.accepted - left;
    it.bytes = it.accepted == 0 ? 0 : (uint64_t)((double)stats.n_bytes / (double)it.accepted * (double)it.emitted);
    return it;
}

void read_accounts(const struct scheduler *scheduler, struct account *accounts) {
    for (uint32_t sender = 0; sender < scheduler->senders; sender++)
        accounts[sender] = account_of(scheduler, sender);
}

void close_scheduler(struct scheduler *scheduler) {
    for (uint32_t queue = 0; queue < scheduler->queues; queue++)
        rte_ring_free(scheduler->lanes[queue].ring);
    rte_sched_port_free(scheduler->port);
    rte_free(scheduler);
}
