/* Writes the report. This is C and no part of what is proved. */
#include "accounts.h"

#include <inttypes.h>

static void report_one(FILE *file, uint32_t sender, const struct account *it, uint64_t bytes) {
    double share = bytes == 0 ? 0 : 100.0 * (double)it->bytes / (double)bytes;
    fprintf(file, "sender %u: sent %" PRIu64 ", overrun %" PRIu64 ", accepted %" PRIu64 ", refused %" PRIu64 ", evicted %" PRIu64, sender,
            it->sent, it->overrun, it->accepted, it->refused, it->evicted);
    fprintf(file, ", emitted %" PRIu64 ", left %" PRIu64 ", bytes %" PRIu64 ", share %.1f\n", it->emitted, it->left, it->bytes, share);
}

void report(FILE *file, const struct account *accounts, uint32_t senders, const struct totals *totals) {
    uint64_t bytes = 0;
    for (uint32_t i = 0; i < senders; i++)
        bytes += accounts[i].bytes;
    for (uint32_t i = 0; i < senders; i++)
        report_one(file, i, &accounts[i], bytes);
    fprintf(file, "all: came %" PRIu64 ", left out %" PRIu64 ", missed %" PRIu64 ", transmitted %" PRIu64 ", unsent %" PRIu64 "\n",
            totals->came, totals->left_out, totals->missed, totals->transmitted, totals->unsent);
    fprintf(file, "in %.3f seconds, of which scheduling had a processor for %.3f: %.0f frames a second\n", totals->seconds,
            totals->scheduling, (double)totals->transmitted / totals->seconds);
}
