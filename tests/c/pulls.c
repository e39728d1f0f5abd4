/* Tests of pulls, moments, and what is left. They stand outside what is proved. */
#include "check.h"

static const char *const SHAPED = "lan :: Sender(0); waiting :: Queue(9); pace :: Shaper(1, 3); uplink :: ToDevice(ppp0);"
                                  "lan -> waiting -> pace -> uplink;";

static uint64_t moment_of(const clk_router *router, unsigned device) {
    uint64_t moment = 77;
    CHECK(clk_moment(router, (uint16_t)device, &moment) == CLK_OK);
    return moment;
}

static void moments_count_upwards(void) {
    clk_router router = opened(SHAPED);
    for (unsigned i = 0; i < 6; i++)
        offered(&router, 0, 100 + i);
    CHECK(moment_of(&router, 0) == 0);
    for (unsigned i = 0; i < 3; i++)
        CHECK(is_packet(pulled(&router, 0, 10), 0, i, 100 + i));
    CHECK(pulled(&router, 0, 10).length == 0);
    CHECK(moment_of(&router, 0) == 10);
    // A moment that was before counts as the greatest.
    CHECK(pulled(&router, 0, 3).length == 0);
    CHECK(moment_of(&router, 0) == 10);
    CHECK(is_packet(pulled(&router, 0, 11), 0, 3, 103));
    CHECK(left(&router, 0) == 2);
    clk_close(&router);
}

static void shapers_tell_when_they_have_room(void) {
    clk_router router = opened(SHAPED);
    uint64_t due = 77;
    CHECK(clk_due(&router, 0, &due) == CLK_NONE && due == 77);
    for (unsigned i = 0; i < 4; i++)
        offered(&router, 0, 100 + i);
    CHECK(clk_due(&router, 0, &due) == CLK_OK && due == 0);
    for (unsigned i = 0; i < 3; i++)
        CHECK(is_packet(pulled(&router, 0, 10), 0, i, 100 + i));
    CHECK(clk_due(&router, 0, &due) == CLK_OK && due == 11);
    CHECK(pulled(&router, 0, 10).length == 0);
    CHECK(clk_due(&router, 0, &due) == CLK_OK && due == 11);
    CHECK(is_packet(pulled(&router, 0, due), 0, 3, 103));
    due = 77;
    CHECK(clk_due(&router, 0, &due) == CLK_NONE && due == 77);
    clk_close(&router);
}

static void many_are_pulled(void) {
    clk_router router = opened(SHAPED);
    clk_packet packets[4] = {{9, 9, 9}, {9, 9, 9}, {9, 9, 9}, {9, 9, 9}};
    size_t given = 99;
    CHECK(clk_pull_many(&router, 0, 0, packets, 4, &given) == CLK_NONE && given == 0);
    for (unsigned i = 0; i < 4; i++)
        offered(&router, 0, 100 + i);
    CHECK(clk_pull_many(&router, 0, 0, packets, 2, &given) == CLK_OK && given == 2);
    CHECK(is_packet(packets[0], 0, 0, 100) && is_packet(packets[1], 0, 1, 101));
    CHECK(clk_pull_many(&router, 0, 0, packets, 4, &given) == CLK_OK && given == 1);
    CHECK(is_packet(packets[0], 0, 2, 102) && is_packet(packets[1], 0, 1, 101) && is_packet(packets[2], 9, 9, 9));
    CHECK(clk_pull_many(&router, 0, 0, packets, 4, &given) == CLK_NONE && given == 0);
    CHECK(left(&router, 0) == 1);
    clk_close(&router);
}

static void what_cannot_be_pulled(void) {
    clk_router router = opened(SHAPED);
    clk_packet packet = {1, 2, 3};
    uint64_t number = 77;
    size_t given = 99;
    offered(&router, 0, 100);
    CHECK(clk_pull(&router, 1, 0, &packet) == CLK_UNKNOWN_DEVICE);
    CHECK(clk_pull(&router, 65535, 0, &packet) == CLK_UNKNOWN_DEVICE);
    CHECK(clk_pull_many(&router, 1, 0, &packet, 1, &given) == CLK_UNKNOWN_DEVICE && given == 0);
    CHECK(clk_pull(&router, 0, CLK_END_OF_MOMENTS, &packet) == CLK_AT_END);
    CHECK(clk_pull(&router, 0, UINT64_MAX, &packet) == CLK_AT_END);
    CHECK(clk_pull_many(&router, 0, CLK_END_OF_MOMENTS, &packet, 1, &given) == CLK_AT_END && given == 0);
    CHECK(clk_moment(&router, 1, &number) == CLK_UNKNOWN_DEVICE && number == 77);
    CHECK(clk_due(&router, 1, &number) == CLK_UNKNOWN_DEVICE && number == 77);
    CHECK(clk_left(&router, 1, &number) == CLK_UNKNOWN_DEVICE && number == 77);
    CHECK(is_packet(packet, 2, 1, 3));
    CHECK(moment_of(&router, 0) == 0 && left(&router, 0) == 1);
    CHECK(is_packet(pulled(&router, 0, CLK_END_OF_MOMENTS - 1), 0, 0, 100));
    clk_close(&router);
}

static void devices_have_moments_of_their_own(void) {
    clk_router router = opened("a :: Sender(0); b :: Sender(1); p, q :: Queue(2); one, two :: ToDevice(link); a -> p -> one; b -> q -> two;");
    CHECK(clk_devices(&router) == 2);
    offered(&router, 1, 20);
    CHECK(left(&router, 0) == 0 && left(&router, 1) == 1);
    CHECK(pulled(&router, 0, 5).length == 0);
    CHECK(moment_of(&router, 0) == 5 && moment_of(&router, 1) == 0);
    CHECK(is_packet(pulled(&router, 1, 3), 1, 0, 20));
    CHECK(moment_of(&router, 1) == 3 && left(&router, 1) == 0);
    clk_close(&router);
}

/* A quantum of 500 bytes a round: two of 250, then one of 500, then two. */
static void bytes_are_shared(void) {
    clk_router router = opened("a :: Sender(0); b :: Sender(1); p, q :: Queue(9); s :: DRRSched(500); d :: ToDevice(link);"
                               "a -> p -> s -> d; b -> q -> [1] s;");
    static const unsigned SENDERS[] = {0, 0, 1, 0, 0, 1};
    for (unsigned i = 0; i < 4; i++) {
        offered(&router, 0, 250);
        offered(&router, 1, 500);
    }
    for (size_t i = 0; i < sizeof SENDERS / sizeof *SENDERS; i++)
        CHECK(pulled(&router, 0, 0).sender == SENDERS[i]);
    clk_close(&router);
}

void test_pulls(void) {
    moments_count_upwards();
    shapers_tell_when_they_have_room();
    many_are_pulled();
    what_cannot_be_pulled();
    devices_have_moments_of_their_own();
    bytes_are_shared();
}
