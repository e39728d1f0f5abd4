/* Runs the tests of the C library, and says how many checks were made: status 1 where one failed. They stand outside what is proved. */
#include "check.h"

#include <string.h>

int checked, failed;

clk_router opened(const char *text) {
    clk_router router;
    clk_fault fault;
    CHECK(clk_open(text, strlen(text), &router, &fault) == CLK_OK);
    CHECK(router.at != NULL);
    return router;
}

int is_packet(clk_packet packet, unsigned sender, unsigned number, unsigned length) {
    return packet.sender == sender && packet.number == number && packet.length == length;
}

clk_offered offered(clk_router *router, unsigned sender, unsigned length) {
    clk_offered it = {{0, 0, 0}, {0, 0, 0}, 0};
    CHECK(clk_offer(router, sender, length, &it) == CLK_OK);
    CHECK(it.packet.sender == sender && it.packet.length == length);
    return it;
}

clk_packet pulled(clk_router *router, unsigned device, uint64_t moment) {
    clk_packet it = {0, 0, 0};
    clk_status status = clk_pull(router, (uint16_t)device, moment, &it);
    CHECK(status == CLK_OK || (status == CLK_NONE && it.length == 0));
    return it;
}

uint64_t left(const clk_router *router, unsigned device) {
    uint64_t packets = 0;
    CHECK(clk_left(router, (uint16_t)device, &packets) == CLK_OK);
    return packets;
}

int main(void) {
    test_opening();
    test_refusals();
    test_offers();
    test_pulls();
    test_draining();
    test_tables();
    test_carrying();
    test_threads();
    test_live();
    test_records();
    printf("%d checks, %d failed\n", checked, failed);
    return failed != 0;
}
