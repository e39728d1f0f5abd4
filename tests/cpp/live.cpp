// Tests of clickpull::LiveRouter and clickpull::Inlet: what becomes of values. They stand outside what is proved.
#include "allocations.hpp"
#include "check.hpp"

#include <algorithm>
#include <array>
#include <limits>
#include <memory>
#include <string>
#include <thread>
#include <vector>

using clickpull::Inlet;
using clickpull::LiveRouter;

static_assert(!std::is_copy_constructible_v<LiveRouter<int>> && !std::is_copy_assignable_v<LiveRouter<int>>);
static_assert(!std::is_copy_constructible_v<Inlet<int>> && !std::is_copy_assignable_v<Inlet<int>>);
static_assert(std::is_nothrow_move_constructible_v<LiveRouter<std::string>> && std::is_nothrow_move_assignable_v<LiveRouter<std::string>>);
static_assert(std::is_nothrow_move_constructible_v<Inlet<std::string>> && std::is_nothrow_move_assignable_v<Inlet<std::string>>);

static const char *const ONE = "a :: Sender(4); q :: Queue(2); d :: ToDevice(link); a -> q -> d;";
static const char *const TWO = "a :: Sender(0); b :: Sender(1); p :: Queue(2); q :: FrontDropQueue(1); s :: DRRSched(100); d :: ToDevice(link);"
                               "a -> p -> s -> d; b -> q -> [1] s;";

static void ignore(const LiveRouter<Counted>::Taken &) {}

static void offer(Inlet<Counted> &inlet, std::uint64_t value, std::uint32_t length = 10) {
    CHECK(inlet.offer(length, Counted(value)).has_value());
}

static void values_come_back_once() {
    const NoneLeft none;
    LiveRouter<Counted> live(TWO, 4);
    Inlet<Counted> a = live.inlet(0), b = live.inlet(1);
    for (std::uint64_t i = 0; i < 3; i++) {
        offer(a, i);
        offer(b, 10 + i);
    }
    std::string came;
    CHECK(live.take_in(4, 64, [&](auto it) {
        CHECK(it.accepted() == !it.refused);
        if (it.refused)
            came += "refused " + std::to_string(it.refused->number()) + " ";
        if (it.evicted)
            came += "evicted " + std::to_string(it.evicted->value.number()) + " ";
    }) == 6);
    CHECK(came == "refused 2 evicted 10 evicted 11 ");
    CHECK(Counted::values == 3);
    auto it = live.pull(0, 0);
    CHECK(it && is_packet(it->packet, 0, 0, 10) && it->value.is(0));
    CHECK(Counted::values == 3);
}

// The value is the caller's until it is accepted.
static void a_full_inlet_leaves_the_value() {
    const NoneLeft none;
    LiveRouter<Counted> live(ONE, 1);
    Inlet<Counted> inlet = live.inlet(4);
    offer(inlet, 1);
    Counted value(2);
    CHECK(!inlet.offer(10, std::move(value)) && value.is(2));
    CHECK(thrown_by([&] { (void)inlet.offer(0, std::move(value)); }) == CLK_BAD_LENGTH && value.is(2));
    live.take(4, 1, ignore);
    CHECK(inlet.offer(10, std::move(value)) == 1U && !value.holds());
    inlet.close();
    inlet.close();
    value = Counted(3);
    CHECK(thrown_by([&] { (void)inlet.offer(10, std::move(value)); }) == CLK_SHUT && value.is(3));
    CHECK(thrown_by([&] { inlet.room(); }) == CLK_SHUT);
}

// What lengths the header takes for wrong before it asks the library, the library does too.
static void lengths_are_those_of_the_library() {
    for (const std::uint32_t length : {0U, 1U, 65'535U, 65'536U, std::numeric_limits<std::uint32_t>::max()}) {
        LiveRouter<int> live(ONE, 1), other(ONE, 1);
        Inlet<int> inlet = live.inlet(4);
        clk_live c = CLK_NO_LIVE;
        clk_inlet of_c = CLK_NO_INLET;
        CHECK(clk_live_open(ONE, std::char_traits<char>::length(ONE), 1, &c, nullptr) == CLK_OK && clk_live_inlet(&c, 4, &of_c) == CLK_OK);
        CHECK(thrown_by([&] { CHECK(inlet.offer(length, 0).has_value()); }) == clk_inlet_offer(&of_c, length, 0, nullptr));
        clk_inlet_close(&of_c);
        clk_live_close(&c);
    }
}

// Each call that asks for something throws this, and none takes the router for one that has nothing.
static void asking_throws(clk_status status, const LiveRouter<Counted> &live) {
    CHECK(thrown_by([&] { live.ended(); }) == status);
    CHECK(thrown_by([&] { live.drained(); }) == status);
    CHECK(thrown_by([&] { live.moment(0); }) == status);
    CHECK(thrown_by([&] { live.due(0); }) == status);
    CHECK(thrown_by([&] { live.left(0); }) == status);
    CHECK(thrown_by([&] { live.devices(); }) == status);
    CHECK(thrown_by([&] { live.accounts(); }) == status);
    CHECK(thrown_by([&] { live.queues(); }) == status);
}

static void both_halves_move() {
    const NoneLeft none;
    LiveRouter<Counted> one(ONE, 2);
    Inlet<Counted> inlet = one.inlet(4);
    offer(inlet, 1);
    Inlet<Counted> moved(std::move(inlet));
    LiveRouter<Counted> live(std::move(one));
    CHECK(!inlet.is_open() && moved.is_open() && !one.is_open() && live.is_open());
    CHECK(thrown_by([&] { (void)inlet.offer(1, Counted(9)); }) == CLK_SHUT);
    CHECK(thrown_by([&] { one.take_in(1, 1, ignore); }) == CLK_SHUT);
    CHECK(thrown_by([&] { one.pull_many(0, 0, 0, [](const auto &) {}); }) == CLK_SHUT);
    CHECK(thrown_by([&] { (void)one.inlet(4); }) == CLK_SHUT);
    asking_throws(CLK_SHUT, one);
    offer(moved, 2);
    CHECK(live.take_in(2, 64, ignore) == 2);
    LiveRouter<Counted> third(ONE, 1);
    {
        Inlet<Counted> other = third.inlet(4);
        offer(other, 9);
    }
    third = std::move(live);
    CHECK(Counted::values == 2);
    LiveRouter<Counted> &same = third;
    third = std::move(same);
    Inlet<Counted> &same_inlet = moved;
    moved = std::move(same_inlet);
    CHECK(third.left(0) == 2 && third.pull(0, 0)->value.is(1) && moved.is_open());
    // What a move is assigned over is closed.
    moved = LiveRouter<Counted>(ONE, 1).inlet(4);
    third.take_in(1, 1, ignore);
    CHECK(third.ended());
    third.shut();
    asking_throws(CLK_SHUT, third);
}

// The packets that were taken and not yet told when a caller throws are told by the next take.
static void a_throw_loses_no_value() {
    const NoneLeft none;
    LiveRouter<Counted> live(ONE, 9);
    Inlet<Counted> inlet = live.inlet(4);
    for (std::uint64_t i = 0; i < 6; i++)
        offer(inlet, i);
    inlet.close();
    const auto interrupt = [](const auto &it) {
        if (it.packet.number == 3)
            throw 7;
    };
    try {
        live.take_in(9, 64, interrupt);
        CHECK(false);
    } catch (int) {
        CHECK(!live.ended());
    }
    std::vector<std::uint64_t> refused;
    const auto note = [&](auto it) { refused.push_back(it.refused->number()); };
    CHECK(live.take(4, 1, note) == 1 && !live.ended() && live.take_what_fits(1, 64, note) == 1);
    CHECK((refused == std::vector<std::uint64_t>{4, 5}));
    CHECK(live.take(4, 9, note) == 0 && live.ended());
    try {
        live.pull_many(0, 0, 9, [](auto) { throw 7; });
        CHECK(false);
    } catch (int) {
        CHECK(live.left(0) == 1);
    }
    try {
        live.drain(0, [](auto) { throw 7; });
        CHECK(false);
    } catch (int) {
        CHECK(live.drained());
    }
}

static void a_throw_stops_a_drain() {
    const NoneLeft none;
    LiveRouter<Counted> live("a :: Sender(4); q :: Queue(3); d :: ToDevice(link); a -> q -> d;", 3);
    Inlet<Counted> inlet = live.inlet(4);
    for (std::uint64_t i = 0; i < 3; i++)
        offer(inlet, i);
    CHECK(live.take(4, 3, ignore) == 3);
    try {
        live.drain(0, [](const auto &) { throw 7; });
        CHECK(false);
    } catch (int) {
        CHECK(live.left(0) == 2 && live.moment(0) == 1 && Counted::values == 2);
    }
    for (unsigned i = 1; i < 3; i++) {
        const auto it = live.pull(0, 1);
        CHECK(it && is_packet(it->packet, 4, i, 10) && it->value.is(i));
    }
}

// What an exception left over of a take moves with the router.
static void a_take_left_over_moves() {
    const NoneLeft none;
    LiveRouter<Counted> one(ONE, 6);
    Inlet<Counted> inlet = one.inlet(4);
    for (std::uint64_t i = 0; i < 6; i++)
        offer(inlet, i);
    try {
        one.take(4, 6, [](const auto &) { throw 7; });
        CHECK(false);
    } catch (int) {
        CHECK(one.left(0) == 2);
    }
    std::vector<std::uint64_t> numbers, refused;
    const auto note = [&](auto it) {
        numbers.push_back(it.packet.number);
        if (it.refused)
            refused.push_back(it.refused->number());
    };
    LiveRouter<Counted> other(std::move(one));
    CHECK(other.take(4, 2, note) == 2);
    LiveRouter<Counted> third(ONE, 1);
    third = std::move(other);
    CHECK(third.take(4, 9, note) == 3 && third.take(4, 9, note) == 0);
    CHECK((numbers == std::vector<std::uint64_t>{1, 2, 3, 4, 5}) && (refused == std::vector<std::uint64_t>{2, 3, 4, 5}));
    CHECK(thrown_by([&] { one.take(4, 9, note); }) == CLK_SHUT && thrown_by([&] { other.take(4, 9, note); }) == CLK_SHUT);
}

// A take goes on only while its router is there: its callback may shut it, move it away or assign another.
static void a_take_ends_with_its_router() {
    const NoneLeft none;
    enum class End { SHUT, MOVED, ASSIGNED_FROM, ASSIGNED_TO };
    for (const End end : {End::SHUT, End::MOVED, End::ASSIGNED_FROM, End::ASSIGNED_TO}) {
        LiveRouter<Counted> live(ONE, 4), other(ONE, 4);
        Inlet<Counted> inlet = live.inlet(4);
        for (std::uint64_t i = 0; i < 4; i++)
            offer(inlet, i);
        inlet.close();
        std::optional<LiveRouter<Counted>> moved;
        unsigned handed = 0;
        const auto leave = [&](const auto &) {
            handed++;
            if (end == End::SHUT)
                live.shut();
            else if (end == End::MOVED)
                moved.emplace(std::move(live));
            else if (end == End::ASSIGNED_FROM)
                other = std::move(live);
            else
                live = std::move(other);
        };
        // Packets 2 and 3 are refused.
        CHECK(live.take(4, 4, leave) == 1 && handed == 1);
        CHECK(live.is_open() == (end == End::ASSIGNED_TO));
        if (end == End::MOVED || end == End::ASSIGNED_FROM)
            CHECK((moved ? *moved : other).take(4, 4, ignore) == 3 && Counted::values == 2);
        else
            CHECK(Counted::values == 0);
    }
}

// A ring that has room is never found full, however many values are elsewhere: held by a scheduler, in the queue, or still to be told.
static void only_a_full_ring_is_full() {
    const NoneLeft none;
    LiveRouter<Counted> live("a :: Sender(4); q :: Queue(2); s :: DRRSched(100); d :: ToDevice(link); a -> q -> s -> d;", 64);
    Inlet<Counted> inlet = live.inlet(4);
    const auto fill = [&] {
        for (std::size_t room = inlet.room(); room > 0; room--)
            offer(inlet, 0, 150);
    };
    fill();
    live.take(4, 1, ignore);
    CHECK(!live.pull(0, 0));
    live.take(4, 2, ignore);
    fill();
    try {
        live.take(4, 64, [](const auto &) { throw 7; });
        CHECK(false);
    } catch (int) {
        CHECK(live.left(0) == 3);
    }
    fill();
    CHECK(Counted::values == 1 + 2 + 63 + 64);
}

// A value whose move constructor throws once it was called so many times.
struct Fragile {
    explicit Fragile(std::uint64_t number) : it(number) {}

    Fragile(Fragile &&other) : it((may_move(), std::move(other.it))) {}

    static void may_move() {
        if (moves_left == 0)
            throw 7;
        moves_left--;
    }

    static inline unsigned moves_left = std::numeric_limits<unsigned>::max();

    Counted it;
};

// Throws 7 if a call moves values more often than it may.
template <class Call> bool breaks(unsigned moves, Call call) {
    Fragile::moves_left = moves;
    bool has_thrown = false;
    try {
        call();
    } catch (int) {
        has_thrown = true;
    }
    Fragile::moves_left = std::numeric_limits<unsigned>::max();
    return has_thrown;
}

static void a_move_that_throws_leaves_the_rest() {
    const NoneLeft none;
    LiveRouter<Fragile> live("a :: Sender(4); q :: FrontDropQueue(2); d :: ToDevice(link); a -> q -> d;", 4);
    Inlet<Fragile> inlet = live.inlet(4);
    Fragile first(0);
    CHECK(breaks(0, [&] { (void)inlet.offer(10, std::move(first)); }) && first.it.is(0) && inlet.room() == 4);
    CHECK(inlet.offer(10, std::move(first)) == 0U);
    for (unsigned i = 1; i < 4; i++)
        CHECK(inlet.offer(10, Fragile(i)) == i);
    // Packets 0 and 1 are evicted. The value of the first breaks, and the second is told by the next take.
    const auto ignore_taken = [](const auto &) {};
    CHECK(breaks(0, [&] { live.take_in(9, 9, ignore_taken); }));
    std::uint64_t evicted = 0;
    CHECK(live.take_in(9, 9, [&](auto it) { evicted = it.evicted->value.it.number(); }) == 1 && evicted == 1);
    CHECK(breaks(0, [&] { (void)live.pull(0, 0); }) && live.left(0) == 1 && Counted::values == 1);
    CHECK(breaks(1, [&] { (void)live.pull(0, 0); }) && live.drained() && Counted::values == 0);
    // All places are free again.
    for (unsigned i = 4; i < 8; i++)
        CHECK(inlet.offer(10, Fragile(i)) == i);
    CHECK(live.take(4, 9, ignore_taken) == 4 && live.pull(0, 0)->value.it.is(6) && live.pull(0, 0)->value.it.is(7));
}

// Each allocation of the header's is refused in turn.
static void memory_that_is_refused_leaves_all_as_it_was() {
    const NoneLeft none;
    std::size_t refused = 0;
    for (std::size_t count = 0;; count++) {
        bool is_refused = false;
        try {
            const Refusing refusing(count);
            LiveRouter<Counted> live("a :: Sender(4); q :: Queue(200); d :: ToDevice(link); a -> q -> d;", 200);
            Inlet<Counted> inlet = live.inlet(4);
            for (std::uint64_t i = 0; i < 150; i++) {
                Counted value(i);
                try {
                    CHECK(inlet.offer(1, std::move(value)) == i);
                } catch (const std::bad_alloc &) {
                    is_refused = true;
                    CHECK(value.is(i) && inlet.room() == 200 - i);
                    break;
                }
            }
            std::uint64_t sent = 200 - inlet.room(), came = 0;
            CHECK(live.take(4, 64, ignore) == std::min<std::size_t>(64, sent));
            live.pull_many(0, 0, 64, [&](auto it) { CHECK(it.value.is(came++)); });
            CHECK(came == std::min<std::uint64_t>(64, sent));
        } catch (const std::bad_alloc &) {
            is_refused = true;
        }
        if (!is_refused)
            break;
        refused++;
    }
    CHECK(refused > 6);
}

// An inlet that couldn't be handed out for want of memory is handed out by the next call.
static void an_inlet_is_handed_out_after_memory_was_refused() {
    const NoneLeft none;
    LiveRouter<Counted> live(ONE, 2);
    std::optional<Inlet<Counted>> inlet;
    std::size_t count = 0;
    for (; !inlet; count++) {
        try {
            const Refusing refusing(count);
            inlet = live.inlet(4);
        } catch (const std::bad_alloc &) {
            CHECK(!live.ended());
        }
    }
    CHECK(count > 2);
    CHECK(thrown_by([&] { (void)live.inlet(4); }) == CLK_HANDED_OUT);
    offer(*inlet, 5);
    CHECK(live.take(4, 2, ignore) == 1 && live.pull(0, 0)->value.is(5));
}

// Declared capacities take no memory of this header's.
static void memory_grows_with_what_is_inside() {
    const NoneLeft none;
    const std::size_t before = allocated();
    LiveRouter<Counted> live("a :: Sender(4); q :: Queue(1000000); d :: ToDevice(link); a -> q -> d;", 4096);
    Inlet<Counted> inlet = live.inlet(4);
    // Many packets go through, of which few are inside at a time.
    for (std::uint64_t i = 0; i < 40'000; i++) {
        offer(inlet, i);
        live.take(4, 64, ignore);
        CHECK(i < 20 || live.pull(0, 0)->value.is(i - 20));
    }
    CHECK(allocated() - before < 16'384);
    for (std::uint64_t i = 0; i < 20'000; i++) {
        offer(inlet, i);
        live.take(4, 64, ignore);
    }
    const std::size_t taken = allocated() - before;
    CHECK(taken > 20'000 * sizeof(Counted) && taken < 20'000 * 4 * (sizeof(Counted) + 8));
}

// However the halves leave, what is left is destroyed with the last of them: two inlets (0 and 1), and the router (2).
static void every_order_of_leaving() {
    std::array<int, 3> order = {0, 1, 2};
    do {
        const NoneLeft none;
        auto live = std::make_unique<LiveRouter<Counted>>(TWO, 4);
        std::optional<Inlet<Counted>> inlets[] = {live->inlet(0), live->inlet(1)};
        for (std::uint64_t i = 0; i < 3; i++) {
            offer(*inlets[0], i, 150);
            offer(*inlets[1], i, 150);
        }
        live->take(0, 2, ignore);
        live->take(1, 1, ignore);
        CHECK(!live->pull(0, 0));
        live->take(1, 1, ignore);
        // Of sender 0 one packet is held, one queued and one in the inlet; of sender 1 as well.
        CHECK(Counted::values == 6 && live->left(0) == 4);
        bool is_gone[3] = {};
        for (const int half : order) {
            if (half == 2)
                live.reset();
            else
                inlets[half].reset();
            is_gone[half] = true;
            CHECK(Counted::values == (is_gone[2] && is_gone[0] ? 0 : 3) + (is_gone[2] && is_gone[1] ? 0 : 3));
        }
    } while (std::next_permutation(order.begin(), order.end()));
}

// A half that was closed has left, though the object is still there.
static void what_is_closed_has_left() {
    const NoneLeft none;
    LiveRouter<Counted> live(ONE, 3);
    Inlet<Counted> inlet = live.inlet(4);
    offer(inlet, 0);
    offer(inlet, 1);
    live.take(4, 1, ignore);
    inlet.close();
    CHECK(Counted::values == 2);
    live.shut();
    CHECK(Counted::values == 0);
}

// Nobody takes any more. The ring fills up, and the values are destroyed with the inlet, here by another thread.
static void the_router_is_destroyed_first() {
    const NoneLeft none;
    std::optional<LiveRouter<Counted>> live(std::in_place, ONE, 3);
    Inlet<Counted> inlet = live->inlet(4);
    offer(inlet, 0);
    live->take(4, 1, ignore);
    live.reset();
    CHECK(Counted::values == 1);
    for (std::uint64_t i = 1; i < 4; i++)
        offer(inlet, i);
    CHECK(!inlet.offer(10, Counted(4)) && inlet.room() == 0);
    CHECK(Counted::values == 4);
    std::thread([last = std::move(inlet)] { CHECK(last.is_open()); }).join();
    CHECK(Counted::values == 0);
}

static void a_router_is_given_up() {
    const NoneLeft none;
    LiveRouter<Counted> live(TWO, 4);
    Inlet<Counted> a = live.inlet(0), b = live.inlet(1);
    for (std::uint64_t i = 0; i < 3; i++)
        offer(a, i);
    offer(b, 10);
    CHECK(live.take_in(2, 64, ignore) == 3);
    std::vector<std::uint64_t> came;
    try {
        live.reclaim([&](auto it) {
            came.push_back(it.number());
            if (it.is(1))
                throw 7;
        });
        CHECK(false);
    } catch (int) {
        CHECK(thrown_by([&] { (void)live.pull(0, 0); }) == CLK_RECLAIMED);
        CHECK(thrown_by([&] { live.take_in(1, 1, ignore); }) == CLK_RECLAIMED);
        CHECK(thrown_by([&] { live.pull_many(0, 0, 0, [](const auto &) {}); }) == CLK_RECLAIMED);
        CHECK(thrown_by([&] { (void)live.inlet(0); }) == CLK_RECLAIMED);
        asking_throws(CLK_RECLAIMED, live);
    }
    CHECK(live.reclaim([&](auto it) { came.push_back(it.number()); }) == 1);
    CHECK((came == std::vector<std::uint64_t>{0, 1, 10}) && Counted::values == 1);
}

// What an exception left over of a take is handed also after the router was given up.
static void a_take_left_over_outlives_the_router() {
    const NoneLeft none;
    LiveRouter<Counted> live(ONE, 4);
    Inlet<Counted> inlet = live.inlet(4);
    for (std::uint64_t i = 0; i < 4; i++)
        offer(inlet, i);
    try {
        live.take(4, 4, [](const auto &) { throw 7; });
        CHECK(false);
    } catch (int) {
        CHECK(live.reclaim([](const auto &) {}) == 2);
    }
    std::uint64_t refused = 0;
    CHECK(live.take(4, 4, [&](auto it) { refused += it.refused ? it.refused->number() : 0; }) == 3 && refused == 2 + 3);
    CHECK(thrown_by([&] { live.take(4, 4, ignore); }) == CLK_RECLAIMED);
}

// Senders, queues and devices are not counted for one another.
static void a_router_counts_its_devices() {
    const LiveRouter<int> live("a :: Sender(0); b :: Sender(1); c :: Sender(2); p, q, r :: Queue(1); s :: PrioSched; d, e :: ToDevice(link);"
                               "a -> p -> s -> d; b -> q -> [1] s; c -> r -> e;", 1);
    CHECK(live.devices() == 2 && live.accounts().size() == 3 && live.queues().size() == 3);
}

// Values of other kinds: moved alone, copied, and with an alignment of their own.
static void any_value_that_moves_travels() {
    struct alignas(128) Wide {
        std::array<char, 130> text;
    };
    LiveRouter<std::unique_ptr<int>> pointers(ONE, 2);
    LiveRouter<std::string> texts(ONE, 2);
    LiveRouter<Wide> wide(ONE, 2);
    auto pointer = pointers.inlet(4);
    auto text = texts.inlet(4);
    auto inlet = wide.inlet(4);
    CHECK(pointer.offer(1, std::make_unique<int>(5)) == 0U && text.offer(1, "a text that is longer than a short one") == 0U);
    CHECK(inlet.offer(1, Wide{{'w'}}) == 0U);
    pointers.take(4, 1, [](const auto &) {});
    texts.take(4, 1, [](const auto &) {});
    wide.take(4, 1, [](const auto &) {});
    const auto last = wide.pull(0, 0);
    CHECK(*pointers.pull(0, 0)->value == 5 && texts.pull(0, 0)->value == "a text that is longer than a short one" && last->value.text[0] == 'w');
}

void test_live() {
    values_come_back_once();
    a_full_inlet_leaves_the_value();
    lengths_are_those_of_the_library();
    both_halves_move();
    a_throw_loses_no_value();
    a_throw_stops_a_drain();
    a_take_left_over_moves();
    a_take_ends_with_its_router();
    only_a_full_ring_is_full();
    a_move_that_throws_leaves_the_rest();
    // What ran before has allocated, and is counted unless valgrind has operators of its own.
    if (allocated() != 0) {
        memory_that_is_refused_leaves_all_as_it_was();
        an_inlet_is_handed_out_after_memory_was_refused();
        memory_grows_with_what_is_inside();
    }
    every_order_of_leaving();
    what_is_closed_has_left();
    the_router_is_destroyed_first();
    a_router_is_given_up();
    a_take_left_over_outlives_the_router();
    a_router_counts_its_devices();
    any_value_that_moves_travels();
}
