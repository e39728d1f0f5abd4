/* Measures rte_sched of DPDK 22.11: nanoseconds a packet, of its enqueue and its dequeue together. This is C and no part of what is proved.
 *
 *     dpdk EAL-WORDS -- PACKETS            prints a line for each setting: its name, one by one, in bursts of 32
 *     dpdk EAL-WORDS -- --threads PACKETS  prints a line for each number of producers: millions of packets a second
 *
 * There is one subport, at a rate that never holds a packet back. Of 16 queues a pipe, 12 stand each in a strict priority of its own, and 4
 * share the lowest by weights. Busy queues hold 32 packets, and stay so: what was dequeued is enqueued again, with its place in the tree.
 *
 * Each producer on a thread of its own puts packets into an rte_ring for one producer and one consumer. It pauses for 200 turns of a loop if the
 * ring is full, and uses each packet again after so many others that it has left. One thread dequeues from the rings, enqueues to rte_sched with 8
 * queues busy, and dequeues. */
#define _GNU_SOURCE
#include "measure.h"

#include <pthread.h>
#include <sched.h>
#include <stdlib.h>
#include <string.h>

#include <rte_eal.h>
#include <rte_mbuf.h>
#include <rte_ring.h>
#include <rte_sched.h>

enum { FILL = 32, BEST_EFFORT = 12, RING_ROOM = 1024, OWN = 16384, BATCH = 64, PAUSE = 200, MOST_PRODUCERS = 4, BUSY = 8 };

static const uint64_t RATE = 100000000000 / 8;

/* So many pipes, of which every `each`-th has so many busy queues. */
static const struct setting {
    const char *name;
    uint32_t pipes, each, busy;
} SETTINGS[] = {
    {"1 pipe, 1 queue busy", 1, 1, 1},
    {"1 pipe, 8 queues busy", 1, 1, 8},
    {"4 pipes, all 64 queues busy", 4, 1, 16},
    {"4 pipes, 2 queues of 64 busy", 4, 2, 1},
    {"64 pipes, a queue of each busy", 64, 1, 1},
    {"4096 pipes, a queue of every 64th busy", 4096, 64, 1},
    {"4096 pipes, a queue of each busy", 4096, 1, 1},
};

static void need(int holds, const char *what) {
    if (!holds) {
        fprintf(stderr, "dpdk: %s\n", what);
        exit(1);
    }
}

static struct rte_sched_port *port_of(const struct setting *setting) {
    struct rte_sched_subport_profile_params profile = {.tb_rate = RATE, .tb_size = 1000000, .tc_period = 10};
    struct rte_sched_pipe_params pipe = {.tb_rate = RATE, .tb_size = 1000000, .tc_period = 10, .tc_ov_weight = 1, .wrr_weights = {1, 1, 1, 1}};
    struct rte_sched_subport_params subport = {
        .n_pipes_per_subport_enabled = setting->pipes, .pipe_profiles = &pipe, .n_pipe_profiles = 1, .n_max_pipe_profiles = 1};
    for (int i = 0; i < RTE_SCHED_TRAFFIC_CLASSES_PER_PIPE; i++) {
        profile.tc_rate[i] = pipe.tc_rate[i] = RATE;
        subport.qsize[i] = 64;
    }
    struct rte_sched_port_params port = {.name = "port",
                                         .socket = 0,
                                         .rate = RATE,
                                         .mtu = 1518,
                                         .frame_overhead = RTE_SCHED_FRAME_OVERHEAD_DEFAULT,
                                         .n_subports_per_port = 1,
                                         .subport_profiles = &profile,
                                         .n_subport_profiles = 1,
                                         .n_max_subport_profiles = 1,
                                         .n_pipes_per_subport = setting->pipes};
    struct rte_sched_port *made = rte_sched_port_config(&port);
    need(made != NULL, "no port");
    need(rte_sched_subport_config(made, 0, &subport, 0) == 0, "no subport");
    for (uint32_t i = 0; i < setting->pipes; i++)
        need(rte_sched_pipe_config(made, 0, i, 0) == 0, "no pipe");
    return made;
}

static void enqueue(struct rte_sched_port *port, struct rte_mbuf **packets, uint32_t count) {
    need(rte_sched_port_enqueue(port, packets, count) == (int)count, "a packet is dropped");
}

static void fill_queue(struct rte_sched_port *port, struct rte_mempool *pool, uint32_t pipe, uint32_t queue) {
    uint32_t class = queue < BEST_EFFORT ? queue : BEST_EFFORT;
    for (unsigned i = 0; i < FILL; i++) {
        struct rte_mbuf *packet = rte_pktmbuf_alloc(pool);
        need(packet != NULL, "no packet");
        packet->pkt_len = packet->data_len = i % 2 == 0 ? 64 : 1500;
        rte_sched_port_pkt_write(port, packet, 0, pipe, class, queue - class, RTE_COLOR_GREEN);
        enqueue(port, &packet, 1);
    }
}

static void one_by_one(void *port, uint64_t packets) {
    struct rte_mbuf *packet;
    while (packets > 0) {
        if (rte_sched_port_dequeue(port, &packet, 1) != 1)
            continue;
        enqueue(port, &packet, 1);
        packets--;
    }
}

static void in_bursts(void *port, uint64_t packets) {
    struct rte_mbuf *burst[BURST];
    for (uint64_t done = 0; done < packets;) {
        int given = rte_sched_port_dequeue(port, burst, BURST);
        if (given > 0)
            enqueue(port, burst, (uint32_t)given);
        done += (uint64_t)given;
    }
}

/* Gives back the packets that a port holds, and the port. */
static void end(struct rte_sched_port *port) {
    rte_sched_port_free(port);
}

static void measure(const struct setting *setting, struct rte_mempool *pool, uint64_t packets) {
    struct rte_sched_port *port = port_of(setting);
    // The last queues of a pipe are the busy ones, as where one queue is, it is one that takes most to find.
    for (uint32_t pipe = setting->each - 1; pipe < setting->pipes; pipe += setting->each)
        for (uint32_t queue = RTE_SCHED_QUEUES_PER_PIPE - setting->busy; queue < RTE_SCHED_QUEUES_PER_PIPE; queue++)
            fill_queue(port, pool, pipe, queue);
    double one = nanoseconds(one_by_one, port, packets), many = nanoseconds(in_bursts, port, packets);
    printf("%s\t%.1f\t%.1f\n", setting->name, one, many);
    fflush(stdout);
    end(port);
}

/* Producers on threads. */

struct producer {
    struct rte_ring *ring;
    struct rte_mbuf **own; /* OWN packets, more than wait anywhere */
    uint64_t packets;
};

static void pause_for(unsigned turns) {
    for (volatile unsigned i = 0; i < turns; i++)
        ;
}

/* DPDK keeps its own thread on one processor. A thread that it starts may use any. */
static void use_any_processor(void) {
    cpu_set_t any;
    CPU_ZERO(&any);
    for (int i = 0; i < CPU_SETSIZE; i++)
        CPU_SET(i, &any);
    need(pthread_setaffinity_np(pthread_self(), sizeof any, &any) == 0, "a thread is held to one processor");
}

static void *produce(void *at) {
    struct producer *me = at;
    use_any_processor();
    for (uint64_t i = 0; i < me->packets; i++)
        while (rte_ring_sp_enqueue(me->ring, me->own[i % OWN]) != 0)
            pause_for(PAUSE);
    return NULL;
}

/* Packets of a producer, each with its place in the tree: the last 8 queues of the pipe, in turn. */
static struct rte_mbuf **packets_of(struct rte_sched_port *port, struct rte_mempool *pool) {
    struct rte_mbuf **own = calloc(OWN, sizeof *own);
    need(own != NULL && rte_pktmbuf_alloc_bulk(pool, own, OWN) == 0, "no packets");
    for (unsigned i = 0; i < OWN; i++) {
        uint32_t queue = RTE_SCHED_QUEUES_PER_PIPE - BUSY + i % BUSY;
        uint32_t class = queue < BEST_EFFORT ? queue : BEST_EFFORT;
        own[i]->pkt_len = own[i]->data_len = (uint16_t)(64 + i % 1400);
        rte_sched_port_pkt_write(port, own[i], 0, 0, class, queue - class, RTE_COLOR_GREEN);
    }
    return own;
}

/* Dequeues from all rings, and passes on what was there, so many packets at once. Returns how many came out. */
static uint64_t pass_on(struct rte_sched_port *port, struct producer *all, uint32_t producers, unsigned at_once) {
    struct rte_mbuf *burst[BATCH];
    uint64_t came = 0;
    for (uint32_t i = 0; i < producers; i++) {
        unsigned given = rte_ring_sc_dequeue_burst(all[i].ring, (void **)burst, BATCH, NULL);
        if (given == 0)
            continue;
        enqueue(port, burst, given);
        for (unsigned left = given; left > 0;)
            left -= (unsigned)rte_sched_port_dequeue(port, burst, left < at_once ? left : at_once);
        came += given;
    }
    return came;
}

static double with_producers(struct rte_mempool *pool, uint32_t producers, uint64_t packets, unsigned at_once) {
    static const struct setting SETTING = {"1 pipe, 8 queues busy", 1, 1, BUSY};
    struct rte_sched_port *port = port_of(&SETTING);
    struct producer all[MOST_PRODUCERS];
    pthread_t threads[MOST_PRODUCERS];
    for (uint32_t i = 0; i < producers; i++) {
        char name[16];
        snprintf(name, sizeof name, "ring%u", i);
        all[i] = (struct producer){rte_ring_create(name, RING_ROOM, 0, RING_F_SP_ENQ | RING_F_SC_DEQ), packets_of(port, pool), packets / producers};
        need(all[i].ring != NULL, "no ring");
    }
    double start = seconds();
    for (uint32_t i = 0; i < producers; i++)
        need(pthread_create(&threads[i], NULL, produce, &all[i]) == 0, "no thread");
    uint64_t sent = packets / producers * producers;
    for (uint64_t came = 0; came < sent;)
        came += pass_on(port, all, producers, at_once);
    double taken = seconds() - start;
    for (uint32_t i = 0; i < producers; i++) {
        pthread_join(threads[i], NULL);
        rte_pktmbuf_free_bulk(all[i].own, OWN);
        free(all[i].own);
        rte_ring_free(all[i].ring);
    }
    end(port);
    return (double)sent / taken / 1e6;
}

/* rte_sched is asked for one packet at a time and for a batch at once, in turn. The faster way counts. */
static void on_threads(struct rte_mempool *pool, uint64_t packets) {
    for (uint32_t producers = 1; producers <= MOST_PRODUCERS; producers *= 2) {
        double most = 0;
        for (int round = 0; round < 2 * ROUNDS; round++) {
            double it = with_producers(pool, producers, packets, round % 2 == 0 ? 1 : BATCH);
            most = it > most ? it : most;
        }
        printf("%u\t%.1f\n", producers, most);
        fflush(stdout);
    }
}

int main(int argc, char **argv) {
    int words = rte_eal_init(argc, argv);
    int on_thread = words >= 0 && argc - words == 3 && strcmp(argv[words + 1], "--threads") == 0;
    need(on_thread || (words >= 0 && argc - words == 2), "usage: dpdk EAL-WORDS -- [--threads] PACKETS");
    uint64_t packets = strtoull(argv[argc - 1], NULL, 10);
    struct rte_mempool *pool = rte_pktmbuf_pool_create("packets", 262143, 256, 0, RTE_PKTMBUF_HEADROOM, 0);
    need(pool != NULL, "no pool of packets");
    if (on_thread)
        on_threads(pool, packets);
    else
        for (size_t i = 0; i < sizeof SETTINGS / sizeof *SETTINGS; i++)
            measure(&SETTINGS[i], pool, packets);
    rte_eal_cleanup();
    return 0;
}
