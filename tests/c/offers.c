/* Tests of offers: what becomes of packets, and which can't be offered. They stand outside what is proved. */
#include "check.h"

#include <string.h>

static const clk_packet NO_PACKET = {0, 0, 0};

static int same(clk_packet one, clk_packet other) {
    return memcmp(&one, &other, sizeof one) == 0;
}

static void a_full_queue_refuses(void) {
    clk_router router = opened("a :: Sender(3); q :: Queue(2); d :: ToDevice(link); a -> q -> d;");
    for (unsigned number = 0; number < 4; number++) {
        clk_offered it = offered(&router, 3, 10 + number);
        CHECK(is_packet(it.packet, 3, number, 10 + number));
        CHECK(it.outcome == (number < 2 ? CLK_ACCEPTED : CLK_REFUSED));
        CHECK(same(it.evicted, NO_PACKET));
    }
    // A number that was refused isn't given again.
    CHECK(is_packet(pulled(&router, 0, 0), 3, 0, 10));
    CHECK(is_packet(offered(&router, 3, 1).packet, 3, 4, 1));
    clk_close(&router);
}

static void a_full_front_drop_queue_evicts(void) {
    clk_router router = opened("a :: Sender(1); b :: Sender(2); q :: FrontDropQueue(2); d :: ToDevice(link); a -> q -> d; b -> q;");
    CHECK(offered(&router, 1, 11).outcome == CLK_ACCEPTED);
    CHECK(offered(&router, 2, 22).outcome == CLK_ACCEPTED);
    clk_offered it = offered(&router, 2, 23);
    CHECK(it.outcome == CLK_EVICTED);
    CHECK(is_packet(it.evicted, 1, 0, 11));
    it = offered(&router, 1, 12);
    CHECK(it.outcome == CLK_EVICTED);
    CHECK(is_packet(it.evicted, 2, 0, 22));
    CHECK(is_packet(pulled(&router, 0, 0), 2, 1, 23));
    CHECK(is_packet(pulled(&router, 0, 0), 1, 1, 12));
    CHECK(left(&router, 0) == 0);
    clk_close(&router);
}

/* What can't be offered changes nothing, and no offer is filled. */
static void what_cannot_be_offered(void) {
    clk_router router = opened("a :: Sender(3); q :: Queue(2); d :: ToDevice(link); a -> q -> d;");
    clk_offered it = {{1, 2, 3}, {4, 5, 6}, 7}, before = it;
    CHECK(clk_offer(&router, 2, 1, &it) == CLK_UNKNOWN_SENDER);
    CHECK(clk_offer(&router, 65535, 1, &it) == CLK_UNKNOWN_SENDER);
    CHECK(clk_offer(&router, 3, 0, &it) == CLK_BAD_LENGTH);
    CHECK(clk_offer(&router, 3, 65536, &it) == CLK_BAD_LENGTH);
    CHECK(clk_offer(&router, 3, 70000, &it) == CLK_BAD_LENGTH);
    CHECK(clk_offer(&router, 3, UINT32_MAX, &it) == CLK_BAD_LENGTH);
    CHECK(clk_offer(&router, 65536 + 3, 1, &it) == CLK_UNKNOWN_SENDER);
    CHECK(clk_offer(&router, UINT32_MAX, 1, &it) == CLK_UNKNOWN_SENDER);
    CHECK(clk_offer(&router, 65536 + 3, 0, &it) == CLK_BAD_LENGTH);
    CHECK(memcmp(&it, &before, sizeof it) == 0);
    CHECK(left(&router, 0) == 0);
    CHECK(is_packet(offered(&router, 3, 65535).packet, 3, 0, 65535));
    clk_close(&router);
}

/* Many are offered up to the first that can't be. */
static void many_are_offered(void) {
    clk_router router = opened("a :: Sender(0); b :: Sender(1); p, q :: Queue(2); s :: PrioSched; d :: ToDevice(link);"
                               "a -> p -> s -> d; b -> q -> [1] s;");
    static const clk_offer_of OFFERS[] = {{0, 10}, {1, 20}, {0, 30}, {0, 40}, {7, 50}, {1, 60}};
    clk_offered it[6];
    size_t done = 99;
    memset(it, 0x5a, sizeof it);
    CHECK(clk_offer_many(&router, OFFERS, 6, it, &done) == CLK_UNKNOWN_SENDER);
    CHECK(done == 4);
    CHECK(is_packet(it[0].packet, 0, 0, 10) && it[0].outcome == CLK_ACCEPTED);
    CHECK(is_packet(it[1].packet, 1, 0, 20) && it[1].outcome == CLK_ACCEPTED);
    CHECK(is_packet(it[2].packet, 0, 1, 30) && it[2].outcome == CLK_ACCEPTED);
    CHECK(is_packet(it[3].packet, 0, 2, 40) && it[3].outcome == CLK_REFUSED);
    CHECK(it[4].outcome == 0x5a5a5a5a && it[5].outcome == 0x5a5a5a5a);
    CHECK(clk_offer_many(&router, OFFERS, 4, it, &done) == CLK_OK && done == 4);
    CHECK(is_packet(it[1].packet, 1, 1, 20) && it[1].outcome == CLK_ACCEPTED);
    CHECK(left(&router, 0) == 4);
    clk_close(&router);
}

/* Each of these second offers ends the many. Nothing of it is filled in, and what stands behind it isn't offered. */
static void an_offer_out_of_range_ends_many(void) {
    static const struct {
        clk_offer_of offer;
        clk_status status;
    } ENDS[] = {{{0, 0}, CLK_BAD_LENGTH},          {{0, 65536}, CLK_BAD_LENGTH},      {{0, 70000}, CLK_BAD_LENGTH},
                {{65536, 0}, CLK_BAD_LENGTH},      {{65536, 1}, CLK_UNKNOWN_SENDER},  {{UINT32_MAX, 1}, CLK_UNKNOWN_SENDER}};
    for (size_t i = 0; i < sizeof ENDS / sizeof *ENDS; i++) {
        clk_router router = opened("a :: Sender(0); q :: Queue(4); d :: ToDevice(link); a -> q -> d;");
        const clk_offer_of offers[] = {{0, 65535}, ENDS[i].offer, {0, 1}};
        clk_offered it[3];
        size_t done = 99;
        memset(it, 0x5a, sizeof it);
        CHECK(clk_offer_many(&router, offers, 3, it, &done) == ENDS[i].status && done == 1);
        CHECK(is_packet(it[0].packet, 0, 0, 65535) && it[0].outcome == CLK_ACCEPTED);
        CHECK(it[1].outcome == 0x5a5a5a5a && it[2].outcome == 0x5a5a5a5a);
        CHECK(left(&router, 0) == 1);
        CHECK(is_packet(offered(&router, 0, 1).packet, 0, 1, 1));
        clk_close(&router);
    }
}

void test_offers(void) {
    a_full_queue_refuses();
    a_full_front_drop_queue_evicts();
    what_cannot_be_offered();
    many_are_offered();
    an_offer_out_of_range_ends_many();
}
