/* Tests of drains. They stand outside what is proved. */
#include "check.h"

static int is_departure(clk_departure it, uint64_t moment, unsigned number) {
    return it.moment == moment && it.packet.number == number && it.packet.sender == 0;
}

/* One packet a tick comes out, from one tick after the counted moment, in pieces of packets and of pulls. */
static void a_drain_goes_on(void) {
    clk_router router = opened("a :: Sender(0); q :: Queue(9); s :: Shaper(1); d :: ToDevice(link); a -> q -> s -> d;");
    clk_departure it[9];
    size_t given = 99;
    uint64_t moment;
    for (unsigned i = 0; i < 7; i++)
        offered(&router, 0, 100);
    CHECK(is_packet(pulled(&router, 0, 20), 0, 0, 100));
    CHECK(clk_drain(&router, 0, it, 2, 100, &given) == CLK_NONE && given == 2);
    CHECK(is_departure(it[0], 21, 1) && is_departure(it[1], 22, 2));
    CHECK(clk_drain(&router, 0, it, 9, 3, &given) == CLK_NONE && given == 3);
    CHECK(is_departure(it[0], 23, 3) && is_departure(it[2], 25, 5));
    CHECK(clk_drain(&router, 0, it, 9, 0, &given) == CLK_NONE && given == 0);
    CHECK(clk_drain(&router, 0, it, 9, 100, &given) == CLK_OK && given == 1);
    CHECK(is_departure(it[0], 26, 6));
    CHECK(clk_moment(&router, 0, &moment) == CLK_OK && moment == 26);
    // With nothing left no pull is made.
    CHECK(clk_drain(&router, 0, it, 9, 100, &given) == CLK_OK && given == 0);
    CHECK(clk_moment(&router, 0, &moment) == CLK_OK && moment == 26);
    clk_close(&router);
}

/* A packet that a DRRSched holds comes out too, after pulls that gave none. */
static void a_held_packet_comes_out(void) {
    clk_router router = opened("a :: Sender(0); q :: Queue(9); s :: DRRSched(500); d :: ToDevice(link); a -> q -> s -> d;");
    clk_departure it[2];
    clk_queue queue;
    size_t given = 99;
    offered(&router, 0, 1600);
    CHECK(pulled(&router, 0, 0).length == 0);
    CHECK(clk_queue_at(&router, 0, &queue) == CLK_OK && queue.held == 0);
    CHECK(left(&router, 0) == 1);
    // Its deficit is 500 at first, and 500 more after each pull: it passes once that is 2000.
    CHECK(clk_drain(&router, 0, it, 2, 2, &given) == CLK_NONE && given == 0);
    CHECK(clk_drain(&router, 0, it, 2, 9, &given) == CLK_OK && given == 1);
    CHECK(is_departure(it[0], 3, 0));
    clk_close(&router);
}

static void what_cannot_be_drained(void) {
    clk_router router = opened("a :: Sender(0); q :: Queue(9); d :: ToDevice(link); a -> q -> d;");
    clk_departure it;
    size_t given = 99;
    CHECK(clk_drain(&router, 1, &it, 1, 1, &given) == CLK_UNKNOWN_DEVICE && given == 0);
    CHECK(pulled(&router, 0, CLK_END_OF_MOMENTS - 1).length == 0);
    offered(&router, 0, 100);
    CHECK(clk_drain(&router, 0, &it, 1, 1, &given) == CLK_AT_END && given == 0);
    CHECK(left(&router, 0) == 1);
    clk_close(&router);
}

void test_draining(void) {
    a_drain_goes_on();
    a_held_packet_comes_out();
    what_cannot_be_drained();
}
