// Tests the table of values between two threads without the library, so that ThreadSanitizer sees each synchronization: value_table PACKETS
//
// The library orders a hand-over by exchanges of its own, which ThreadSanitizer doesn't see. Here a ring of std::atomic stands in its
// place. This program stands outside what is proved.
#include "../check.hpp"

#include <array>
#include <cstdlib>
#include <memory>
#include <thread>
#include <vector>

namespace {

// Takes the places of packets to the owner, as an inlet does.
class Ring {
public:
    bool push(std::uint32_t place) {
        const std::size_t end = end_.load(std::memory_order_relaxed);
        if (end - begin_.load(std::memory_order_acquire) == places_.size())
            return false;
        places_[end % places_.size()] = place;
        end_.store(end + 1, std::memory_order_release);
        return true;
    }

    bool pop(std::uint32_t &place) {
        const std::size_t begin = begin_.load(std::memory_order_relaxed);
        if (begin == end_.load(std::memory_order_acquire))
            return false;
        place = places_[begin % places_.size()];
        begin_.store(begin + 1, std::memory_order_release);
        return true;
    }

    bool is_full() const { return end_.load(std::memory_order_relaxed) - begin_.load(std::memory_order_acquire) == places_.size(); }

private:
    std::array<std::uint32_t, 64> places_{};
    std::atomic<std::size_t> begin_{0}, end_{0};
};

using Value = std::unique_ptr<std::uint64_t>;
using Table = clickpull::detail::ValueTable<Value>;

// Fewer than the ring and the owner may hold together: so the sender often waits for a place, and uses it as soon as it is free.
constexpr std::size_t MOST = 100, HELD = 70;

// Both threads count what is wrong in variables of their own: a counter that they shared would order what it is to show unordered.

// The values go out in another order than that in which they came in, as they do from a tree. The last ones stay.
std::uint64_t own(Table &table, Ring &ring, std::uint64_t packets) {
    std::uint64_t wrong = 0;
    std::vector<std::uint32_t> held;
    std::vector<bool> is_out(packets);
    for (std::uint64_t taken = 0; taken < packets;) {
        std::uint32_t place;
        if (!ring.pop(place))
            continue;
        taken++;
        held.push_back(place);
        while (held.size() > HELD || (taken % 8 == 0 && held.size() > 10)) {
            std::swap(held[taken * 7 % held.size()], held.back());
            const Value value = table.take(held.back());
            held.pop_back();
            wrong += is_out[*value];
            is_out[*value] = true;
        }
    }
    return wrong;
}

std::uint64_t send(Table &table, Ring &ring, std::uint64_t packets) {
    std::uint64_t wrong = 0;
    for (std::uint64_t number = 0; number < packets; number++) {
        while (ring.is_full())
            std::this_thread::yield();
        auto value = std::make_unique<std::uint64_t>(number);
        while (!table.put(std::move(value), [&](std::uint32_t place) { wrong += place > MOST || !ring.push(place); }))
            wrong += *value != number;
    }
    return wrong;
}

// The thread that leaves last destroys what is left.
void two_threads(std::uint64_t packets) {
    std::uint64_t wrong[2] = {1, 1};
    auto table = std::make_shared<Table>(MOST);
    Ring ring;
    std::thread sender([table, &ring, &wrong, packets] { wrong[0] = send(*table, ring, packets); });
    std::thread owner([last = std::move(table), &ring, &wrong, packets] { wrong[1] = own(*last, ring, packets); });
    sender.join();
    owner.join();
    CHECK(wrong[0] == 0 && wrong[1] == 0);
}

// A table has as many places as it says, whatever their order, and a full one leaves the value. A hand-over that fails frees its place.
void a_full_table_leaves_the_value() {
    const NoneLeft none;
    for (const std::uint32_t most : {1U, 2U, 15U, 16U, 17U, 100U}) {
        clickpull::detail::ValueTable<std::unique_ptr<Counted>> table(most);
        std::vector<std::uint32_t> places;
        const auto keep = [&](std::uint32_t place) { places.push_back(place); };
        for (unsigned round = 0; round < 3; round++) {
            for (std::uint32_t i = 0; i < most; i++)
                CHECK(table.put(std::make_unique<Counted>(i), keep));
            auto value = std::make_unique<Counted>(most);
            CHECK(!table.put(std::move(value), keep) && value && places.size() == most);
            value.reset();
            for (std::uint32_t i = 0; i < most; i++)
                CHECK(table.take(places[i])->is(i));
            places.clear();
            try {
                table.put(std::make_unique<Counted>(0), [](std::uint32_t) { throw 7; });
                CHECK(false);
            } catch (int) {
                CHECK(Counted::values == 0);
            }
        }
    }
}

} // namespace

int main(int count, char **words) {
    if (count != 2) {
        std::fprintf(stderr, "value_table: wants PACKETS\n");
        return 2;
    }
    a_full_table_leaves_the_value();
    two_threads(std::strtoull(words[1], nullptr, 10));
    std::printf("%d checks, %d failed\n", checked.load(), failed.load());
    return failed != 0;
}
