// Tests of clickpull::Carrier: values go in and come out with their packets. They stand outside what is proved.
#include "allocations.hpp"
#include "check.hpp"

#include <memory>
#include <random>
#include <string>

using clickpull::Carrier;

// A value that is moved alone, so that none is there twice.
using Own = std::unique_ptr<std::string>;

static Own own(const std::string &text) {
    return std::make_unique<std::string>(text);
}

static_assert(!std::is_copy_constructible_v<Carrier<int>> && !std::is_copy_assignable_v<Carrier<int>>);
static_assert(std::is_nothrow_move_constructible_v<Carrier<Own>> && std::is_nothrow_move_assignable_v<Carrier<Own>>);

// All calls but templates compile for a value that is moved alone.
template class clickpull::Carrier<Own>;

static const char *const ONE = "a :: Sender(0); q :: Queue(9); d :: ToDevice(link); a -> q -> d;";

static void values_come_out_in_order() {
    Carrier<Own> carrier("a :: Sender(0); b :: Sender(7); p, q :: Queue(2); s :: RoundRobinSched; d :: ToDevice(link);"
                         "a -> p -> s -> d; b -> q -> [1] s;");
    CHECK(carrier.offer(0, 10, own("a0")).accepted());
    CHECK(carrier.offer(0, 11, own("a1")).accepted());
    CHECK(carrier.offer(7, 20, own("b0")).accepted());
    CHECK(carrier.kept(0) == 2 && carrier.kept(7) == 1);
    std::string came;
    CHECK(carrier.pull_many(0, 3, 9, [&](auto it) { came += *it.value + "@" + std::to_string(it.moment) + " "; }) == 3);
    CHECK(came == "a0@3 b0@3 a1@3 ");
    CHECK(!carrier.pull(0, 4));
}

static void a_refused_value_comes_back() {
    Carrier<Own> carrier("a :: Sender(0); q :: Queue(1); d :: ToDevice(link); a -> q -> d;");
    CHECK(carrier.offer(0, 10, own("first")).accepted());
    auto it = carrier.offer(0, 11, own("second"));
    CHECK(!it.accepted() && **it.refused == "second" && is_packet(it.packet, 0, 1, 11));
    CHECK(!carrier.offer(0, 12, own("third")).accepted());
    const auto packet = carrier.pull(0, 0);
    CHECK(packet && *packet->value == "first" && carrier.kept(0) == 0);
}

// The DRRSched holds the first, so the second is what the queue puts out.
static void an_evicted_value_stands_behind_held_ones() {
    Carrier<Own> carrier("a :: Sender(0); q :: FrontDropQueue(1); s :: DRRSched(500); d :: ToDevice(link); a -> q -> s -> d;");
    CHECK(carrier.offer(0, 1500, own("held")).accepted());
    CHECK(!carrier.pull(0, 0));
    CHECK(carrier.offer(0, 20, own("put out")).accepted());
    auto it = carrier.offer(0, 30, own("last"));
    CHECK(it.accepted() && it.evicted && is_packet(it.evicted->packet, 0, 1, 20) && *it.evicted->value == "put out");
    std::string came;
    const auto drained = carrier.drain(0, [&](auto out) { came += *out.value + "@" + std::to_string(out.moment) + " "; });
    CHECK(drained.count == 2 && drained.all);
    CHECK(came == "held@2 last@4 ");
}

static void what_cannot_be_offered_leaves_no_value() {
    Carrier<int> carrier("a :: Sender(0); q :: Queue(1); d :: ToDevice(link); a -> q -> d;");
    CHECK(thrown_by([&] { (void)carrier.offer(0, 0, 5); }) == CLK_BAD_LENGTH);
    CHECK(thrown_by([&] { (void)carrier.offer(1, 1, 5); }) == CLK_UNKNOWN_SENDER);
    CHECK(carrier.kept(0) == 0);
    Carrier<int> other(std::move(carrier));
    CHECK(thrown_by([&] { (void)carrier.offer(0, 1, 5); }) == CLK_SHUT);
    CHECK(thrown_by([&] { carrier.pull_many(0, 0, 0, [](const auto &) {}); }) == CLK_SHUT);
    CHECK(thrown_by([&] { other.pull_many(1, 0, 0, [](const auto &) {}); }) == CLK_UNKNOWN_DEVICE);
    CHECK(other.offer(0, 1, 6).accepted() && other.pull(0, 0)->value == 6);
}

// Whichever argument is evaluated first, and whatever an offer throws, the value is still the caller's.
static void a_value_is_moved_by_an_offer_that_is_made() {
    Carrier<Own> carrier(ONE);
    Own value = own("abc");
    CHECK(carrier.offer(0, static_cast<std::uint32_t>(value->size()), std::move(value)).accepted() && !value);
    Own kept = own("x");
    CHECK(thrown_by([&] { (void)carrier.offer(0, 0, std::move(kept)); }) == CLK_BAD_LENGTH && kept);
    CHECK(thrown_by([&] { (void)carrier.offer(0, 65536, std::move(kept)); }) == CLK_BAD_LENGTH && kept);
    CHECK(thrown_by([&] { (void)carrier.offer(1, 1, std::move(kept)); }) == CLK_UNKNOWN_SENDER && kept);
    const auto it = carrier.pull(0, 0);
    CHECK(it && is_packet(it->packet, 0, 0, 3) && *it->value == "abc");
    const Carrier<Own> other(std::move(carrier));
    CHECK(thrown_by([&] { (void)carrier.offer(0, 1, std::move(kept)); }) == CLK_SHUT && kept);
}

// A value that isn't moved is copied, and an offer whose copy throws isn't made.
static void a_value_is_copied() {
    Carrier<std::string> carrier(ONE);
    const std::string text = "a text that is longer than a short one";
    std::string other = text + ", and another";
    CHECK(carrier.offer(0, static_cast<std::uint32_t>(text.size()), text).accepted());
    bool is_refused = false;
    try {
        const Refusing refusing(0);
        CHECK(carrier.offer(0, 1, other).accepted());
    } catch (const std::bad_alloc &) {
        is_refused = true;
        CHECK(carrier.kept(0) == 1 && carrier.router().left(0) == 1);
        CHECK(carrier.offer(0, 1, other).accepted());
    }
    // valgrind has operators of its own, which refuse nothing.
    CHECK(is_refused || allocated() == 0);
    CHECK(carrier.pull(0, 0)->value == text);
    const auto last = carrier.pull(0, 0);
    CHECK(is_packet(last->packet, 0, 1, 1) && last->value == other && other == text + ", and another");
}

// Offers a value again until no allocation of the offer's is refused. Returns how many were refused. Each leaves all as it was.
static std::size_t refused_to_an_offer(Carrier<Own> &carrier, std::uint32_t number) {
    Own value = own(std::to_string(number));
    for (std::size_t count = 0;; count++) {
        try {
            const Refusing refusing(count);
            CHECK(carrier.offer(0, 1 + number, std::move(value)).accepted());
            return count;
        } catch (const std::bad_alloc &) {
            CHECK(value && *value == std::to_string(number));
            CHECK(carrier.kept(0) == number && carrier.router().left(0) == number);
        }
    }
}

static void memory_that_is_refused_leaves_all_as_it_was() {
    constexpr std::uint32_t COUNT = 600;
    Carrier<Own> carrier("a :: Sender(0); q :: Queue(" + std::to_string(COUNT) + "); d :: ToDevice(link); a -> q -> d;");
    std::size_t refused = 0;
    for (std::uint32_t number = 0; number < COUNT; number++)
        refused += refused_to_an_offer(carrier, number);
    CHECK(refused > 10 || allocated() == 0);
    for (std::uint32_t number = 0; number < COUNT; number++) {
        const auto it = carrier.pull(0, 0);
        CHECK(it && is_packet(it->packet, 0, number, 1 + number) && it->value && *it->value == std::to_string(number));
    }
    CHECK(carrier.kept(0) == 0 && !carrier.pull(0, 0));
}

static void a_carrier_moves() {
    const NoneLeft none;
    Carrier<Counted> one(ONE);
    CHECK(one.offer(0, 1, Counted(1)).accepted() && one.offer(0, 1, Counted(2)).accepted());
    Carrier<Counted> other(std::move(one));
    CHECK(!one.router().is_open() && thrown_by([&] { one.kept(0); }) == CLK_SHUT);
    CHECK(other.kept(0) == 2 && other.pull(0, 0)->value.is(1));
    Carrier<Counted> third("a :: Sender(7); q :: Queue(1); d :: ToDevice(link); a -> q -> d;");
    CHECK(third.offer(7, 1, Counted(9)).accepted() && Counted::values == 2);
    third = std::move(other);
    CHECK(Counted::values == 1 && !other.router().is_open() && thrown_by([&] { third.kept(7); }) == CLK_UNKNOWN_SENDER);
    Carrier<Counted> &same = third;
    third = std::move(same);
    CHECK(Counted::values == 1 && third.router().is_open());
    CHECK(third.offer(0, 1, Counted(3)).accepted() && third.kept(0) == 2);
    CHECK(third.pull(0, 0)->value.is(2) && third.pull(0, 0)->value.is(3));
}

// What a caller throws stops the pulls, and loses no more than what it was handed.
static void a_throw_stops_the_pulls() {
    Carrier<int> carrier(ONE);
    for (int i = 0; i < 4; i++)
        CHECK(carrier.offer(0, 1, i).accepted());
    try {
        carrier.pull_many(0, 0, 9, [](auto it) {
            if (it.value == 1)
                throw 7;
        });
        CHECK(false);
    } catch (int) {
        CHECK(carrier.kept(0) == 2 && carrier.router().left(0) == 2);
        CHECK(carrier.pull(0, 0)->value == 2);
    }
}

static void a_throw_stops_a_drain() {
    Carrier<int> carrier(ONE);
    for (int i = 0; i < 3; i++)
        CHECK(carrier.offer(0, 1, i).accepted());
    try {
        carrier.drain(0, [](const auto &) { throw 7; });
        CHECK(false);
    } catch (int) {
        CHECK(carrier.kept(0) == 2 && carrier.router().left(0) == 2 && carrier.router().moment(0) == 1);
    }
    for (int i = 1; i < 3; i++) {
        const auto it = carrier.pull(0, 1);
        CHECK(it && it->packet.number == static_cast<std::uint32_t>(i) && it->value == i);
    }
}

static void many_values_keep_their_packets() {
    Carrier<std::pair<unsigned, unsigned>> carrier("a :: Sender(0); b :: Sender(1); c :: Sender(2); p :: FrontDropQueue(4); q :: FrontDropQueue(3);"
                                                   "low, top :: DRRSched(200); d :: ToDevice(link);"
                                                   "a -> p; b -> p; c -> q; p -> low; low -> top; q -> [1] top; top -> d;");
    std::mt19937 random(1);
    unsigned numbers[3] = {0, 0, 0};
    const auto fits = [](const auto &it) { return it.value.first == it.packet.sender && it.value.second == it.packet.number; };
    for (std::uint64_t moment = 0; moment < 4000; moment++) {
        const auto sender = static_cast<std::uint32_t>(random() % 3);
        const auto length = static_cast<std::uint32_t>(1 + random() % 1500);
        const auto it = carrier.offer(sender, length, {sender, numbers[sender]++});
        CHECK(!it.evicted || fits(*it.evicted));
        const auto out = carrier.pull(0, moment);
        CHECK(!out || fits(*out));
    }
    CHECK(carrier.drain(0, [&](auto it) { CHECK(fits(it)); }).all);
    CHECK(carrier.kept(0) + carrier.kept(1) + carrier.kept(2) == 0);
}

void test_carrier() {
    values_come_out_in_order();
    a_refused_value_comes_back();
    an_evicted_value_stands_behind_held_ones();
    what_cannot_be_offered_leaves_no_value();
    a_value_is_moved_by_an_offer_that_is_made();
    a_value_is_copied();
    memory_that_is_refused_leaves_all_as_it_was();
    a_carrier_moves();
    a_throw_stops_the_pulls();
    a_throw_stops_a_drain();
    many_values_keep_their_packets();
}
