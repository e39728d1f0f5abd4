// Tests of clickpull::LiveRouter with senders on threads of their own. They stand outside what is proved.
#include "check.hpp"

#include <memory>
#include <thread>
#include <vector>

using clickpull::Inlet;
using clickpull::LiveRouter;

namespace {

constexpr std::uint32_t SENDERS = 4;

// A thread that is joined when it is destroyed.
#ifdef __cpp_lib_jthread
using Thread = std::jthread;
#else
class Thread {
public:
    template <class Call> explicit Thread(Call call) : thread_(std::move(call)) {}
    Thread(Thread &&) = default;
    ~Thread() {
        if (thread_.joinable())
            thread_.join();
    }

private:
    std::thread thread_;
};
#endif

std::uint64_t value_of(std::uint32_t sender, std::uint32_t number) {
    return std::uint64_t{sender} << 32 | number;
}

// Sends so many packets, each with a value on the heap, and closes its inlet when it ends.
Thread sender_of(Inlet<std::unique_ptr<Counted>> inlet, std::uint32_t sender, std::uint32_t packets) {
    return Thread([inlet = std::move(inlet), sender, packets]() mutable {
        for (std::uint32_t number = 0; number < packets; number++) {
            auto value = std::make_unique<Counted>(value_of(sender, number));
            std::optional<std::uint32_t> given;
            while (!(given = inlet.offer(1 + number % 1500, std::move(value))))
                std::this_thread::yield();
            CHECK(given == number && !value);
        }
    });
}

// What came back of each sender's packets: each once, and those that were emitted in order.
class Tally {
public:
    explicit Tally(std::uint32_t packets) : is_back_(SENDERS, std::vector<bool>(packets)), next_(SENDERS) {}

    void came_back(const clickpull::Packet &packet, const std::unique_ptr<Counted> &value) {
        CHECK(value && value->is(value_of(packet.sender, packet.number)) && packet.length == 1 + packet.number % 1500);
        CHECK(!is_back_[packet.sender][packet.number]);
        is_back_[packet.sender][packet.number] = true;
        count_++;
    }

    void was_emitted(const clickpull::Packet &packet, const std::unique_ptr<Counted> &value) {
        came_back(packet, value);
        CHECK(packet.number >= next_[packet.sender]);
        next_[packet.sender] = packet.number + 1;
    }

    std::size_t count() const { return count_; }

private:
    std::vector<std::vector<bool>> is_back_;
    std::vector<std::uint32_t> next_;
    std::size_t count_ = 0;
};

const char *const TREE = "a :: Sender(0); b :: Sender(1); c :: Sender(2); e :: Sender(3); p :: Queue(40); q :: FrontDropQueue(20); r :: FrontDropQueue(1);"
                         "s :: DRRSched(800); d :: ToDevice(link); a -> p -> s -> d; b -> q -> [1] s; c -> r -> [2] s; e -> p;";

// Four senders, and a router on this thread, whose queues refuse and evict, or hold their senders back.
void all_come_back(std::uint32_t packets, std::uint32_t room, bool is_lossless) {
    const NoneLeft none;
    LiveRouter<std::unique_ptr<Counted>> live(TREE, room);
    Tally tally(packets);
    std::vector<Thread> threads;
    for (std::uint32_t i = 0; i < SENDERS; i++)
        threads.push_back(sender_of(live.inlet(i), i, packets));
    const auto taken = [&](auto it) {
        CHECK(!is_lossless || (it.accepted() && !it.evicted));
        if (it.refused)
            tally.came_back(it.packet, *it.refused);
        if (it.evicted)
            tally.came_back(it.evicted->packet, it.evicted->value);
    };
    for (std::uint64_t now = 0; !live.ended() || !live.drained(); now++) {
        const std::size_t count = is_lossless ? live.take_what_fits(16, 64, taken) : live.take_in(16, 64, taken);
        const std::size_t emitted = live.pull_many(0, now, 40, [&](auto it) { tally.was_emitted(it.packet, it.value); });
        if (count + emitted == 0)
            std::this_thread::yield();
    }
    CHECK(tally.count() == std::size_t{packets} * SENDERS);
}

// The router leaves while the senders still send: what is left is destroyed when they leave.
void the_router_leaves_in_between(std::uint32_t packets) {
    const NoneLeft none;
    std::vector<Thread> threads;
    LiveRouter<Counted> live(TREE, 64);
    std::atomic<bool> is_gone{false};
    for (std::uint32_t i = 0; i < SENDERS; i++)
        threads.push_back(Thread([inlet = live.inlet(i), &is_gone]() mutable {
            std::uint64_t number = 0;
            while (!is_gone || inlet.room() != 0)
                if (inlet.offer(100, Counted(number)))
                    number++;
                else
                    std::this_thread::yield();
        }));
    for (std::size_t came = 0; came < packets;) {
        live.take_in(4, 64, [](const auto &) {});
        came += live.pull_many(0, 0, 64, [](const auto &) {});
    }
    live.shut();
    is_gone = true;
    threads.clear();
}

} // namespace

void test_live_threads(std::uint32_t packets) {
    all_come_back(packets, 64, false);
    all_come_back(packets, 64, true);
    all_come_back(packets / 4, 1, true);
    the_router_leaves_in_between(packets);
}
