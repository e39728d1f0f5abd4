/* Writes the report. This is C and no part of what is proved. */
#include "report.h"

#include <inttypes.h>

static clk_total plus(clk_total one, clk_total other) {
    return (clk_total){one.packets + other.packets, one.bytes + other.bytes};
}

static double percent(uint64_t part, uint64_t whole) {
    return whole == 0 ? 0 : 100.0 * (double)part / (double)whole;
}

static void report_one(FILE *file, const clk_account *it, uint64_t in, uint64_t out, uint64_t slowest) {
    clk_total came = plus(it->accepted, it->refused), lost = plus(it->refused, it->evicted);
    fprintf(file, "sender %u: came %" PRIu64 " %" PRIu64 ", lost %" PRIu64 " %" PRIu64 ", left %" PRIu64 " %" PRIu64, it->sender,
            came.packets, came.bytes, lost.packets, lost.bytes, it->emitted.packets, it->emitted.bytes);
    fprintf(file, ", share in %.1f, out %.1f, slowest %.1f\n", percent(came.bytes, in), percent(it->emitted.bytes, out),
            (double)slowest / 1000);
}

void report(FILE *file, const clk_router *router, const uint64_t *slowest, uint64_t left_out) {
    clk_account it;
    uint64_t in = 0, out = 0;
    size_t senders = clk_senders(router);
    for (size_t place = 0; place < senders && clk_account_at(router, place, &it) == CLK_OK; place++) {
        in += it.accepted.bytes + it.refused.bytes;
        out += it.emitted.bytes;
    }
    for (size_t place = 0; place < senders && clk_account_at(router, place, &it) == CLK_OK; place++)
        report_one(file, &it, in, out, slowest[it.sender]);
    fprintf(file, "left out: %" PRIu64 "\n", left_out);
}
