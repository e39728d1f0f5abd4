/* Opens ports, transmits, and closes them. This is C over DPDK, and no part of what is proved. */
#include "ports.h"
#include "pool.h"
#include "told.h"

#include <rte_errno.h>
#include <rte_ethdev.h>

/* How many descriptors a queue has. */
enum { DESCRIPTORS = 1024 };

static void need(int status, uint16_t port, const char *what) {
    if (status != 0)
        stop("port %u: %s: %s", port, what, rte_strerror(-status));
}

/* Configures a port with so many queues. With several receive queues the device spreads flows over them, if it can. */
static void configure(uint16_t port, uint16_t receive, uint16_t transmit, uint16_t descriptors[2]) {
    struct rte_eth_dev_info info;
    struct rte_eth_conf conf = {.rxmode = {.mq_mode = RTE_ETH_MQ_RX_NONE}};
    need(rte_eth_dev_info_get(port, &info), port, "no device information");
    if (info.max_rx_queues < receive)
        stop("port %u: it has %u receive queues at most, and %u are asked for", port, info.max_rx_queues, receive);
    uint64_t spread = info.flow_type_rss_offloads & (RTE_ETH_RSS_IP | RTE_ETH_RSS_TCP | RTE_ETH_RSS_UDP);
    if (receive > 1 && spread != 0) {
        conf.rxmode.mq_mode = RTE_ETH_MQ_RX_RSS;
        conf.rx_adv_conf.rss_conf.rss_hf = spread;
    }
    need(rte_eth_dev_configure(port, receive, transmit, &conf), port, "not configured");
    need(rte_eth_dev_adjust_nb_rx_tx_desc(port, &descriptors[0], &descriptors[1]), port, "no descriptors");
}

static void start(uint16_t port, uint16_t receive, uint16_t transmit, struct rte_mempool *pool) {
    uint16_t descriptors[2] = {DESCRIPTORS, DESCRIPTORS};
    unsigned socket = (unsigned)rte_eth_dev_socket_id(port);
    configure(port, receive, transmit, descriptors);
    for (uint16_t queue = 0; queue < receive; queue++)
        need(rte_eth_rx_queue_setup(port, queue, descriptors[0], socket, NULL, pool), port, "no receive queue");
    for (uint16_t queue = 0; queue < transmit; queue++)
        need(rte_eth_tx_queue_setup(port, queue, descriptors[1], socket, NULL), port, "no transmit queue");
    need(rte_eth_dev_start(port), port, "not started");
}

/* Frames to any address are received, as far as the device can do it. */
static void receive_all(uint16_t port) {
    int status = rte_eth_promiscuous_enable(port);
    if (status != -ENOTSUP)
        need(status, port, "not promiscuous");
}

void open_ports(struct ports *ports, uint16_t queues, uint64_t inside) {
    unsigned count = rte_eth_dev_count_avail();
    if (count != 1 && count != 2)
        stop("there are %u ports, where there have to be one or two: name them by --vdev or -a", count);
    ports->pool = open_pool(inside + (queues + UINT64_C(1)) * DESCRIPTORS);
    ports->in = 0;
    ports->out = (uint16_t)(count - 1);
    ports->outlet = (struct outlet){.port = ports->out};
    if (ports->out == ports->in)
        start(ports->in, queues, 1, ports->pool);
    else {
        start(ports->in, queues, 0, ports->pool);
        start(ports->out, 0, 1, ports->pool);
    }
    receive_all(ports->in);
}

int flush(struct outlet *outlet) {
    if (outlet->count == 0)
        return 1;
    uint16_t sent = rte_eth_tx_burst(outlet->port, 0, outlet->frames + outlet->first, (uint16_t)outlet->count);
    outlet->first += sent;
    outlet->count -= sent;
    outlet->transmitted += sent;
    return outlet->count == 0;
}

void give_up(struct outlet *outlet) {
    rte_pktmbuf_free_bulk(outlet->frames + outlet->first, outlet->count);
    outlet->lost += outlet->count;
    outlet->count = 0;
}

uint64_t missed(const struct ports *ports) {
    struct rte_eth_stats stats;
    need(rte_eth_stats_get(ports->in, &stats), ports->in, "no statistics");
    return stats.imissed + stats.rx_nombuf;
}

static void shut(uint16_t port) {
    need(rte_eth_dev_stop(port), port, "not stopped");
    need(rte_eth_dev_close(port), port, "not closed");
}

int close_ports(struct ports *ports) {
    shut(ports->in);
    if (ports->out != ports->in)
        shut(ports->out);
    return close_pool(ports->pool);
}
