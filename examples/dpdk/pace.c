/* Paces a link by the TSC. This is C over DPDK, and no part of what is proved. */
#include "pace.h"
#include "scheduler.h"

#include <rte_cycles.h>

/* What the longest frame has in bytes, as Ethernet has it without jumbo frames. */
enum { LONGEST = 1518 };

void set_pace(struct pace *pace, uint64_t rate, uint64_t now) {
    *pace = (struct pace){.bytes_a_cycle = (double)rate / 8 / (double)rte_get_tsc_hz(), .latest = now};
}

unsigned frames_due(struct pace *pace, uint64_t now) {
    if (pace->bytes_a_cycle == 0)
        return BURST;
    double bytes = pace->bytes + (double)(now - pace->latest) * pace->bytes_a_cycle;
    pace->bytes = RTE_MIN(bytes, (double)BURST * LONGEST);
    pace->latest = now;
    return pace->bytes < 0 ? 0 : RTE_MIN((unsigned)(pace->bytes / LONGEST) + 1, (unsigned)BURST);
}

void count_sent(struct pace *pace, struct rte_mbuf *const *frames, unsigned count, unsigned most) {
    if (pace->bytes_a_cycle == 0)
        return;
    for (unsigned i = 0; i < count; i++)
        pace->bytes -= rte_pktmbuf_pkt_len(frames[i]);
    if (count < most)
        pace->bytes = RTE_MIN(pace->bytes, 0.0);
}
