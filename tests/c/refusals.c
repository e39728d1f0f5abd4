/* Tests of what callers get wrong: nulls, and a shut router. They stand outside what is proved. */
#include "check.h"

static clk_router shut = CLK_NO_ROUTER;
static clk_offered offer;
static clk_offer_of wanted = {0, 1};
static clk_packet packet;
static clk_departure departure;
static clk_account account;
static clk_queue queue;
static clk_inlet inlet = CLK_NO_INLET;
static clk_item item = {7, 1};
static uint64_t number;
static uint32_t place;
static size_t count;

static void a_shut_router_is_told(void) {
    CHECK(clk_offer(&shut, 0, 1, &offer) == CLK_SHUT);
    count = 5;
    CHECK(clk_offer_many(&shut, &wanted, 1, &offer, &count) == CLK_SHUT && count == 0);
    CHECK(clk_pull(&shut, 0, 0, &packet) == CLK_SHUT);
    count = 5;
    CHECK(clk_pull_many(&shut, 0, 0, &packet, 1, &count) == CLK_SHUT && count == 0);
    CHECK(clk_moment(&shut, 0, &number) == CLK_SHUT);
    CHECK(clk_due(&shut, 0, &number) == CLK_SHUT);
    CHECK(clk_left(&shut, 0, &number) == CLK_SHUT);
    count = 5;
    CHECK(clk_drain(&shut, 0, &departure, 1, 1, &count) == CLK_SHUT && count == 0);
    CHECK(clk_account_at(&shut, 0, &account) == CLK_SHUT);
    count = 5;
    CHECK(clk_sender_name(&shut, 0, NULL, 0, &count) == CLK_SHUT && count == 0);
    CHECK(clk_queue_at(&shut, 0, &queue) == CLK_SHUT);
    CHECK(clk_senders(&shut) == 0 && clk_queues(&shut) == 0 && clk_devices(&shut) == 0);
}

static void no_router_is_told(void) {
    CHECK(clk_open("", 0, NULL, NULL) == CLK_NULL);
    CHECK(clk_offer(NULL, 0, 1, &offer) == CLK_NULL);
    CHECK(clk_offer_many(NULL, &wanted, 1, &offer, &count) == CLK_NULL);
    CHECK(clk_pull(NULL, 0, 0, &packet) == CLK_NULL);
    CHECK(clk_pull_many(NULL, 0, 0, &packet, 1, &count) == CLK_NULL);
    CHECK(clk_moment(NULL, 0, &number) == CLK_NULL);
    CHECK(clk_due(NULL, 0, &number) == CLK_NULL);
    CHECK(clk_left(NULL, 0, &number) == CLK_NULL);
    CHECK(clk_drain(NULL, 0, &departure, 1, 1, &count) == CLK_NULL);
    CHECK(clk_account_at(NULL, 0, &account) == CLK_NULL);
    count = 5;
    CHECK(clk_sender_name(NULL, 0, NULL, 0, &count) == CLK_NULL && count == 0);
    CHECK(clk_queue_at(NULL, 0, &queue) == CLK_NULL);
    CHECK(clk_senders(NULL) == 0 && clk_queues(NULL) == 0 && clk_devices(NULL) == 0);
}

static void nulls_are_told(clk_router *router) {
    CHECK(clk_offer(router, 0, 1, NULL) == CLK_NULL);
    CHECK(clk_offer_many(router, NULL, 1, &offer, &count) == CLK_NULL);
    CHECK(clk_offer_many(router, &wanted, 1, NULL, &count) == CLK_NULL);
    CHECK(clk_offer_many(router, &wanted, 1, &offer, NULL) == CLK_NULL);
    CHECK(clk_pull(router, 0, 0, NULL) == CLK_NULL);
    CHECK(clk_pull_many(router, 0, 0, NULL, 1, &count) == CLK_NULL);
    CHECK(clk_pull_many(router, 0, 0, &packet, 1, NULL) == CLK_NULL);
    CHECK(clk_moment(router, 0, NULL) == CLK_NULL);
    CHECK(clk_due(router, 0, NULL) == CLK_NULL);
    CHECK(clk_left(router, 0, NULL) == CLK_NULL);
    CHECK(clk_drain(router, 0, NULL, 1, 1, &count) == CLK_NULL);
    CHECK(clk_drain(router, 0, &departure, 1, 1, NULL) == CLK_NULL);
    CHECK(clk_account_at(router, 0, NULL) == CLK_NULL);
    CHECK(clk_sender_name(router, 0, NULL, 0, NULL) == CLK_NULL);
    count = 5;
    CHECK(clk_sender_name(router, 0, NULL, 1, &count) == CLK_NULL && count == 0);
    CHECK(clk_queue_at(router, 0, NULL) == CLK_NULL);
}

/* An inlet that is shut or null, and nulls beside it. */
static void no_inlet_is_told(void) {
    place = 5;
    CHECK(clk_inlet_offer(&inlet, 1, 7, &place) == CLK_SHUT && place == 5);
    CHECK(clk_inlet_offer(NULL, 1, 7, &place) == CLK_NULL && place == 5);
    count = 5;
    CHECK(clk_inlet_offer_many(&inlet, &item, 1, &count) == CLK_SHUT && count == 0);
    count = 5;
    CHECK(clk_inlet_offer_many(NULL, &item, 1, &count) == CLK_NULL && count == 0);
    CHECK(clk_inlet_offer_many(&inlet, NULL, 1, &count) == CLK_NULL);
    CHECK(clk_inlet_offer_many(&inlet, &item, 1, NULL) == CLK_NULL);
    count = 5;
    CHECK(clk_inlet_room(&inlet, &count) == CLK_SHUT && count == 5);
    CHECK(clk_inlet_room(NULL, &count) == CLK_NULL && count == 5);
    CHECK(clk_inlet_room(&inlet, NULL) == CLK_NULL);
    CHECK(clk_inlet_close(&inlet) == CLK_SHUT && inlet.at == NULL);
    CHECK(clk_inlet_close(NULL) == CLK_NULL);
}

/* A text that is null is none, and leaves the router shut. */
static void a_null_text_is_told(void) {
    clk_router router = CLK_NO_ROUTER;
    CHECK(clk_open(NULL, 3, &router, NULL) == CLK_NULL);
    CHECK(router.at == NULL);
}

/* An array may be null where it has no elements. */
static void nothing_needs_no_array(clk_router *router) {
    CHECK(clk_offer_many(router, NULL, 0, NULL, &count) == CLK_OK && count == 0);
    CHECK(clk_pull_many(router, 0, 0, NULL, 0, &count) == CLK_OK && count == 0);
    CHECK(clk_drain(router, 0, NULL, 0, 0, &count) == CLK_OK && count == 0);
}

/* Nothing of all that changed the router. */
static void nothing_was_done(clk_router *router) {
    CHECK(left(router, 0) == 0);
    CHECK(clk_account_at(router, 0, &account) == CLK_OK);
    CHECK(account.accepted.packets == 0 && account.refused.packets == 0);
    CHECK(offered(router, 0, 9).packet.number == 0);
}

void test_refusals(void) {
    clk_router router = opened("a :: Sender(0); q :: Queue(1); d :: ToDevice(link); a -> q -> d;");
    a_shut_router_is_told();
    no_router_is_told();
    nulls_are_told(&router);
    no_inlet_is_told();
    a_null_text_is_told();
    nothing_needs_no_array(&router);
    nothing_was_done(&router);
    clk_close(&router);
}
