// Tests of clickpull::Router. They stand outside what is proved.
#include "check.hpp"

#include <cstring>
#include <string>

using clickpull::Departure;
using clickpull::Packet;
using clickpull::Router;
using clickpull::TextFault;

static_assert(!std::is_copy_constructible_v<Router> && !std::is_copy_assignable_v<Router>);
static_assert(std::is_nothrow_move_constructible_v<Router> && std::is_nothrow_move_assignable_v<Router>);

static const char *const ONE = "a :: Sender(4); q :: FrontDropQueue(2); d :: ToDevice(link); a -> q -> d;";

static void a_fault_is_thrown() {
    try {
        Router router("a :: Sender(0);\nq :: Heap(3);");
        CHECK(false);
    } catch (const TextFault &it) {
        CHECK(it.status() == CLK_FAULT);
        CHECK(it.number() == 3 && it.offset() == 21 && it.line() == 2 && it.column() == 6);
        CHECK(std::strcmp(it.name(), "UnknownClass") == 0);
        CHECK(std::strcmp(it.what(), "fault 3: UnknownClass at line 2, column 6") == 0);
        CHECK(it.explanation().find("2:6: there is no class 'Heap'\n    q :: Heap(3);\n         ^\nexpected Sender, ") == 0);
        CHECK(it.explanation().back() == '\n');
    }
}

static void a_fault_without_a_place_is_thrown() {
    try {
        Router router("");
        CHECK(false);
    } catch (const TextFault &it) {
        CHECK(it.number() == 11 && it.offset() == 0 && it.line() == 1 && it.column() == 1);
        CHECK(std::strcmp(it.what(), "fault 11: NoDevice") == 0);
    }
}

// A message has a place if the explanation begins with one.
static void faults_have_the_places_of_their_explanations() {
    for (std::uint32_t number = 0; number < 32; number++)
        if (*clk_fault_name(number) != '\0') {
            const TextFault it({number, 0}, "");
            const bool has_place = it.explanation().find("1:1: ") == 0;
            CHECK((std::string(it.what()).find(" at line 1, column 1") != std::string::npos) == has_place);
        }
}

static void packets_are_offered_and_pulled() {
    Router router(ONE);
    CHECK(!router.pull(0, 0));
    CHECK(!router.due(0));
    for (unsigned i = 0; i < 2; i++) {
        const auto it = router.offer(4, 10 + i);
        CHECK(is_packet(it.packet, 4, i, 10 + i) && it.accepted && !it.evicted);
    }
    const auto it = router.offer(4, 12);
    CHECK(it.accepted && it.evicted && is_packet(*it.evicted, 4, 0, 10));
    CHECK(router.left(0) == 2);
    const auto packet = router.pull(0, 7);
    CHECK(packet && is_packet(*packet, 4, 1, 11));
    CHECK(router.moment(0) == 7);
    CHECK(router.due(0) == 7U);
}

static void a_full_queue_refuses() {
    Router router("a :: Sender(4); q :: Queue(1); d :: ToDevice(link); a -> q -> d;");
    CHECK(router.offer(4, 1).accepted);
    const auto it = router.offer(4, 2);
    CHECK(!it.accepted && !it.evicted && it.packet.number == 1);
}

static void bursts_go_together() {
    Router router(ONE);
    const clk_offer_of offers[] = {{4, 10}, {4, 20}, {5, 30}, {4, 40}};
    clk_offered offered[4];
    const auto done = router.offer_many(offers, 4, offered);
    CHECK(done.count == 2 && done.status == CLK_UNKNOWN_SENDER);
    Packet packets[4];
    CHECK(router.pull_many(0, 0, packets, 4) == 2);
    CHECK(is_packet(packets[0], 4, 0, 10) && is_packet(packets[1], 4, 1, 20));
    CHECK(router.pull_many(0, 0, packets, 4) == 0);
}

// An offer for many throws only if it can't say how far it came.
static void bursts_that_cannot_be_are_thrown() {
    Router router(ONE);
    const clk_offer_of offer{4, 10};
    clk_offered offered;
    CHECK(thrown_by([&] { (void)router.offer_many(nullptr, 1, &offered); }) == CLK_NULL);
    CHECK(thrown_by([&] { (void)router.offer_many(&offer, 1, nullptr); }) == CLK_NULL);
    const auto none = router.offer_many(nullptr, 0, nullptr);
    CHECK(none.count == 0 && none.status == CLK_OK && router.left(0) == 0);
    router.shut();
    CHECK(thrown_by([&] { (void)router.offer_many(&offer, 1, &offered); }) == CLK_SHUT);
    CHECK(thrown_by([&] { (void)router.offer_many(nullptr, 0, nullptr); }) == CLK_SHUT);
}

static void a_router_drains() {
    Router router("a :: Sender(0); q :: Queue(9); s :: Shaper(1); d :: ToDevice(link); a -> q -> s -> d;");
    for (int i = 0; i < 5; i++)
        CHECK(router.offer(0, 100).accepted);
    Departure departures[3];
    auto it = router.drain(0, departures, 3);
    CHECK(it.count == 3 && !it.all && departures[2].moment == 3);
    it = router.drain(0, departures, 3, 1);
    CHECK(it.count == 1 && !it.all && departures[0].moment == 4);
    it = router.drain(0, departures, 3);
    CHECK(it.count == 1 && it.all && is_packet(departures[0].packet, 0, 4, 100));
}

/* What came out before the last moment is answered, and the next drain throws. */
static void a_drain_ends_with_moments() {
    Router router("a :: Sender(0); q :: Queue(9); d :: ToDevice(link); a -> q -> d;");
    for (int i = 0; i < 3; i++)
        CHECK(router.offer(0, 100).accepted);
    CHECK(router.pull(0, CLK_END_OF_MOMENTS - 2).has_value());
    Departure departures[3];
    const auto it = router.drain(0, departures, 3);
    CHECK(it.count == 1 && !it.all && departures[0].moment == CLK_END_OF_MOMENTS - 1);
    CHECK(thrown_by([&] { (void)router.drain(0, departures, 3); }) == CLK_AT_END);
}

static void what_cannot_be_is_thrown() {
    Router router(ONE);
    CHECK(thrown_by([&] { (void)router.offer(5, 1); }) == CLK_UNKNOWN_SENDER);
    CHECK(thrown_by([&] { (void)router.offer(4, 0); }) == CLK_BAD_LENGTH);
    CHECK(thrown_by([&] { (void)router.offer(4, 65536); }) == CLK_BAD_LENGTH);
    CHECK(thrown_by([&] { (void)router.offer(65536 + 4, 1); }) == CLK_UNKNOWN_SENDER);
    CHECK(thrown_by([&] { (void)router.pull(1, 0); }) == CLK_UNKNOWN_DEVICE);
    CHECK(thrown_by([&] { (void)router.pull(0, CLK_END_OF_MOMENTS); }) == CLK_AT_END);
    CHECK(thrown_by([&] { router.left(1); }) == CLK_UNKNOWN_DEVICE);
    CHECK(thrown_by([&] { router.moment(1); }) == CLK_UNKNOWN_DEVICE);
    CHECK(thrown_by([&] { (void)router.drain(1, nullptr, 0); }) == CLK_UNKNOWN_DEVICE);
    CHECK(thrown_by([&] { (void)router.pull_many(0, 0, nullptr, 1); }) == CLK_NULL);
}

// No call that asks for something takes a shut router for one that has nothing.
static void a_shut_router_is_told(const Router &router) {
    CHECK(thrown_by([&] { router.moment(0); }) == CLK_SHUT);
    CHECK(thrown_by([&] { router.due(0); }) == CLK_SHUT);
    CHECK(thrown_by([&] { router.left(0); }) == CLK_SHUT);
    CHECK(thrown_by([&] { router.devices(); }) == CLK_SHUT);
    CHECK(thrown_by([&] { router.accounts(); }) == CLK_SHUT);
    CHECK(thrown_by([&] { router.sender_names(); }) == CLK_SHUT);
    CHECK(thrown_by([&] { router.queues(); }) == CLK_SHUT);
}

static void a_router_moves() {
    Router one(ONE);
    CHECK(one.offer(4, 9).accepted);
    Router other(std::move(one));
    CHECK(!one.is_open() && other.is_open());
    CHECK(thrown_by([&] { (void)one.offer(4, 1); }) == CLK_SHUT);
    a_shut_router_is_told(one);
    Router third("a :: Sender(1); q :: Queue; d :: ToDevice(link); a -> q -> d;");
    third = std::move(other);
    CHECK(third.left(0) == 1 && !other.is_open());
    Router &same = third;
    third = std::move(same);
    CHECK(third.left(0) == 1);
    third.shut();
    third.shut();
    a_shut_router_is_told(third);
}

static void a_router_tells_what_there_is() {
    Router router(ONE);
    CHECK(router.offer(4, 9).accepted);
    const auto accounts = router.accounts();
    CHECK(accounts.size() == 1 && accounts[0].sender == 4 && accounts[0].accepted.bytes == 9);
    CHECK(router.sender_names() == std::vector<std::string>{"a"});
    const auto queues = router.queues();
    CHECK(queues.size() == 1 && queues[0].capacity == 2 && queues[0].held == 1 && queues[0].front_drop == 1);
    CHECK(router.devices() == 1);
    CHECK(clk_devices(router.c()) == 1);
}

// Senders, queues and devices are not counted for one another.
static void a_router_counts_its_devices() {
    const Router router("a :: Sender(0); b :: Sender(1); c :: Sender(2); p, q, r :: Queue(1); s :: PrioSched; d, e :: ToDevice(link);"
                        "a -> p -> s -> d; b -> q -> [1] s; c -> r -> e;");
    CHECK(router.devices() == 2 && router.accounts().size() == 3 && router.queues().size() == 3);
}

void test_router() {
    a_fault_is_thrown();
    a_fault_without_a_place_is_thrown();
    faults_have_the_places_of_their_explanations();
    packets_are_offered_and_pulled();
    a_full_queue_refuses();
    bursts_go_together();
    bursts_that_cannot_be_are_thrown();
    a_router_drains();
    a_drain_ends_with_moments();
    what_cannot_be_is_thrown();
    a_router_moves();
    a_router_tells_what_there_is();
    a_router_counts_its_devices();
}
