/* Tests of what there is: accounts of senders, and queues. They stand outside what is proved. */
#include "check.h"

#include <string.h>

static const char *const TREE = "late :: Sender(9); early :: Sender(2); p :: FrontDropQueue(2); q :: Queue; s :: RoundRobinSched;"
                                "one, two :: ToDevice(link); early -> q -> two; late -> p -> s -> one;";

static int is_total(clk_total total, uint64_t packets, uint64_t bytes) {
    return total.packets == packets && total.bytes == bytes;
}

static void queues_are_told(const clk_router *router) {
    clk_queue it = {7, 7, 7, 7};
    CHECK(clk_queues(router) == 2);
    CHECK(clk_queue_at(router, 0, &it) == CLK_OK);
    CHECK(it.capacity == 2 && it.held == 2 && it.device == 0 && it.front_drop == 1);
    CHECK(clk_queue_at(router, 1, &it) == CLK_OK);
    CHECK(it.capacity == 1000 && it.held == 1 && it.device == 1 && it.front_drop == 0);
    CHECK(clk_queue_at(router, 2, &it) == CLK_UNKNOWN_QUEUE);
    CHECK(clk_queue_at(router, 65535, &it) == CLK_UNKNOWN_QUEUE);
    CHECK(it.capacity == 1000);
}

/* Senders stand by rising numbers, whatever the order of declaration. */
static void accounts_are_told(const clk_router *router) {
    clk_account it = {{7, 7}, {7, 7}, {7, 7}, {7, 7}, 7, 7};
    CHECK(clk_senders(router) == 2);
    CHECK(clk_account_at(router, 0, &it) == CLK_OK);
    CHECK(it.sender == 2 && it.queue == 1);
    CHECK(is_total(it.accepted, 1, 40) && is_total(it.refused, 0, 0) && is_total(it.evicted, 0, 0) && is_total(it.emitted, 0, 0));
    CHECK(clk_account_at(router, 1, &it) == CLK_OK);
    CHECK(it.sender == 9 && it.queue == 0);
    CHECK(is_total(it.accepted, 4, 1000) && is_total(it.refused, 0, 0) && is_total(it.evicted, 1, 200) && is_total(it.emitted, 1, 100));
    CHECK(clk_account_at(router, 2, &it) == CLK_UNKNOWN_SENDER);
    CHECK(it.sender == 9);
}

static void names_are_told(const clk_router *router) {
    char name[6] = "??????";
    size_t needed = 9;
    CHECK(clk_sender_name(router, 0, name, 6, &needed) == CLK_OK && needed == 5);
    CHECK(memcmp(name, "early?", 6) == 0);
    CHECK(clk_sender_name(router, 1, name, 4, &needed) == CLK_OK && needed == 4);
    CHECK(memcmp(name, "latey?", 6) == 0);
    CHECK(clk_sender_name(router, 0, name, 4, &needed) == CLK_FULL && needed == 5);
    CHECK(clk_sender_name(router, 0, NULL, 0, &needed) == CLK_FULL && needed == 5);
    CHECK(clk_sender_name(router, 2, name, 6, &needed) == CLK_UNKNOWN_SENDER && needed == 0);
    CHECK(memcmp(name, "latey?", 6) == 0);
}

static void refused_ones_are_counted(void) {
    clk_router router = opened("a :: Sender(0); q :: Queue(1); d :: ToDevice(link); a -> q -> d;");
    clk_account it;
    for (unsigned i = 0; i < 3; i++)
        offered(&router, 0, 65535);
    CHECK(clk_account_at(&router, 0, &it) == CLK_OK);
    CHECK(is_total(it.accepted, 1, 65535) && is_total(it.refused, 2, 131070));
    clk_close(&router);
}

void test_tables(void) {
    clk_router router = opened(TREE);
    offered(&router, 9, 100);
    CHECK(is_packet(pulled(&router, 0, 0), 9, 0, 100));
    offered(&router, 9, 200);
    offered(&router, 9, 300);
    CHECK(offered(&router, 9, 400).outcome == CLK_EVICTED);
    offered(&router, 2, 40);
    queues_are_told(&router);
    accounts_are_told(&router);
    names_are_told(&router);
    clk_close(&router);
    refused_ones_are_counted();
}
