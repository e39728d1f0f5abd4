// Random calls on LiveRouter and Carrier beside a model of queues below one scheduler: each value comes back once, with its packet, in the
// order that the model has. They stand outside what is proved.
#include "check.hpp"

#include <algorithm>
#include <deque>
#include <iterator>
#include <optional>
#include <random>
#include <string>
#include <vector>

namespace {

constexpr unsigned SEEDS = 200, CALLS = 500;

struct Item {
    std::uint32_t sender, number, length;
    std::uint64_t value;

    bool operator==(const Item &other) const {
        return sender == other.sender && number == other.number && length == other.length && value == other.value;
    }
};

Item item_of(const clickpull::Packet &packet, const Counted &value) {
    CHECK(value.holds());
    return {packet.sender, packet.number, packet.length, value.number()};
}

// What became of a packet, as the model or a router tells it. Values of packets that are inside aren't told.
struct Told {
    Item packet;
    bool is_refused;
    std::optional<Item> evicted;

    bool operator==(const Told &other) const { return packet == other.packet && is_refused == other.is_refused && evicted == other.evicted; }
};

struct OfQueue {
    std::size_t capacity;
    bool drops_front;
    std::deque<Item> held;
};

struct OfSender {
    std::size_t queue;
    std::deque<Item> waiting;
    std::uint32_t accepted = 0;
};

// Senders 0, 1, .. in queues below a PrioSched or a RoundRobinSched.
class Model {
public:
    Model(std::mt19937 &random, std::size_t room) : room_(room), has_turns_(random() % 2 == 0) {
        const std::size_t queues = 1 + random() % 3, senders = queues + random() % 3;
        for (std::size_t i = 0; i < queues; i++)
            queues_.push_back({1 + random() % 5, random() % 2 == 0, {}});
        for (std::size_t i = 0; i < senders; i++)
            senders_.push_back({i < queues ? i : random() % queues, {}});
    }

    std::string tree() const {
        std::string text = std::string("s :: ") + (has_turns_ ? "RoundRobinSched" : "PrioSched") + "; d :: ToDevice(link); s -> d; ";
        for (std::size_t i = 0; i < queues_.size(); i++) {
            const std::string name = "q" + std::to_string(i);
            text += name + " :: " + (queues_[i].drops_front ? "FrontDropQueue(" : "Queue(") + std::to_string(queues_[i].capacity) + "); ";
            text += name + " -> [" + std::to_string(i) + "] s; ";
        }
        for (std::size_t i = 0; i < senders_.size(); i++)
            text += "a" + std::to_string(i) + " :: Sender(" + std::to_string(i) + "); a" + std::to_string(i) + " -> q" + std::to_string(senders_[i].queue) + "; ";
        return text;
    }

    std::size_t senders() const { return senders_.size(); }

    bool put(std::uint32_t sender, std::uint32_t length, std::uint64_t value) {
        OfSender &it = senders_[sender];
        if (it.waiting.size() == room_)
            return false;
        it.waiting.push_back({sender, it.accepted++, length, value});
        return true;
    }

    std::vector<Told> take(std::uint32_t sender, std::size_t count) {
        std::vector<Told> all;
        take_some(senders_[sender], std::min<std::size_t>(count, CLK_MOST_TAKEN), false, all);
        return all;
    }

    std::vector<Told> take_in(std::size_t each, std::size_t count, bool only_what_fits) {
        std::vector<Told> all;
        const std::size_t most = std::min<std::size_t>(count, CLK_MOST_TAKEN);
        for (std::size_t i = 0; i < senders_.size() && all.size() < most; i++) {
            take_some(senders_[turn_], std::min(each, most - all.size()), only_what_fits, all);
            turn_ = (turn_ + 1) % senders_.size();
        }
        // After a round that took packets and left places free, the next one starts one sender later.
        if (!all.empty() && all.size() < most)
            turn_ = (turn_ + 1) % senders_.size();
        return all;
    }

    Told offer(const Item &packet) {
        OfQueue &queue = queues_[senders_[packet.sender].queue];
        const bool is_full = is_queue_full(packet.sender);
        if (is_full && !queue.drops_front)
            return {packet, true, std::nullopt};
        Told told{packet, false, std::nullopt};
        if (is_full) {
            told.evicted = queue.held.front();
            queue.held.pop_front();
        }
        queue.held.push_back(packet);
        return told;
    }

    std::optional<Item> pull() {
        for (std::size_t i = 0; i < queues_.size(); i++) {
            const std::size_t at = has_turns_ ? (next_ + i) % queues_.size() : i;
            std::deque<Item> &held = queues_[at].held;
            if (held.empty())
                continue;
            const Item it = held.front();
            held.pop_front();
            next_ = at + 1;
            return it;
        }
        return std::nullopt;
    }

    std::size_t room_of(std::uint32_t sender) const { return room_ - senders_[sender].waiting.size(); }

    std::size_t left() const {
        std::size_t all = 0;
        for (const OfQueue &it : queues_)
            all += it.held.size();
        return all;
    }

    std::size_t waiting() const {
        std::size_t all = 0;
        for (const OfSender &it : senders_)
            all += it.waiting.size();
        return all;
    }

private:
    bool is_queue_full(std::uint32_t sender) const {
        const OfQueue &queue = queues_[senders_[sender].queue];
        return queue.held.size() == queue.capacity;
    }

    void take_some(OfSender &sender, std::size_t count, bool only_what_fits, std::vector<Told> &all) {
        for (; count > 0 && !sender.waiting.empty(); count--) {
            if (only_what_fits && is_queue_full(sender.waiting.front().sender))
                return;
            all.push_back(offer(sender.waiting.front()));
            sender.waiting.pop_front();
        }
    }

    std::size_t room_;
    bool has_turns_;
    std::vector<OfQueue> queues_;
    std::vector<OfSender> senders_;
    std::size_t turn_ = 0, next_ = 0;
};

// A LiveRouter beside the model.
class Live {
public:
    Live(std::mt19937 &random, std::size_t room)
        : random_(random), model_(random, room), live_(model_.tree(), static_cast<std::uint32_t>(room)) {
        for (std::uint32_t i = 0; i < model_.senders(); i++)
            inlets_.push_back(live_.inlet(i));
    }

    void call() {
        const unsigned chance = random_() % 16;
        if (chance < 8)
            put();
        else if (chance < 11)
            take();
        else
            pull();
        const std::uint32_t sender = any_sender();
        CHECK(live_.left(0) == model_.left() && live_.drained() == (model_.left() == 0) && !live_.ended());
        CHECK(inlets_[sender].room() == model_.room_of(sender));
        CHECK(Counted::values == static_cast<long>(model_.left() + model_.waiting()));
    }

    // All that is inside comes out, after the inlets are closed.
    void end() {
        inlets_.clear();
        while (model_.waiting() != 0)
            take();
        live_.take_in(1, 1, [](const auto &) { CHECK(false); });
        CHECK(live_.ended());
        while (model_.left() != 0)
            pull();
        CHECK(live_.drained() && Counted::values == 0);
    }

private:
    std::uint32_t any_sender() { return static_cast<std::uint32_t>(random_() % model_.senders()); }

    void put() {
        const std::uint32_t sender = any_sender(), length = static_cast<std::uint32_t>(1 + random_() % 1500);
        Counted value(++values_);
        const auto number = inlets_[sender].offer(length, std::move(value));
        CHECK(number.has_value() == model_.put(sender, length, values_) && value.holds() == !number);
    }

    // Hands what is taken to a caller that throws now and then, until all is told.
    template <class Take> void told(const std::vector<Told> &wanted, Take take) {
        std::vector<Told> all;
        const auto note = [&](auto it) {
            const std::uint64_t value = all.size() < wanted.size() ? wanted[all.size()].packet.value : 0;
            const Item packet = it.refused ? item_of(it.packet, *it.refused) : Item{it.packet.sender, it.packet.number, it.packet.length, value};
            all.push_back({packet, it.refused.has_value(), std::nullopt});
            if (it.evicted)
                all.back().evicted = item_of(it.evicted->packet, it.evicted->value);
            if (random_() % 8 == 0)
                throw 7;
        };
        for (bool has_more = true; has_more;) {
            has_more = false;
            try {
                take(note);
            } catch (int) {
                has_more = all.size() < wanted.size();
            }
        }
        CHECK(all == wanted);
    }

    void take() {
        const std::size_t each = random_() % 4, count = random_() % 2 == 0 ? 100 : random_() % 5;
        const std::uint32_t sender = any_sender();
        switch (random_() % 3) {
        case 0:
            return told(model_.take(sender, count), [&](auto &note) { live_.take(sender, count, note); });
        case 1:
            return told(model_.take_in(each, count, false), [&](auto &note) { live_.take_in(each, count, note); });
        default:
            return told(model_.take_in(each, count, true), [&](auto &note) { live_.take_what_fits(each, count, note); });
        }
    }

    void pull() {
        if (random_() % 2 == 0) {
            const auto it = live_.pull(0, 0);
            const auto wanted = model_.pull();
            CHECK(it ? wanted && item_of(it->packet, it->value) == *wanted : !wanted);
            return;
        }
        const auto note = [&](auto it) { CHECK(item_of(it.packet, it.value) == model_.pull()); };
        if (random_() % 4 == 0)
            CHECK(live_.drain(0, note).all && model_.left() == 0);
        else
            live_.pull_many(0, 0, random_() % 4, note);
    }

    std::mt19937 &random_;
    Model model_;
    clickpull::LiveRouter<Counted> live_;
    std::vector<clickpull::Inlet<Counted>> inlets_;
    std::uint64_t values_ = 0;
};

// A Carrier beside the model: an offer goes to its queue at once.
void carry(std::mt19937 &random) {
    Model model(random, 1);
    clickpull::Carrier<Counted> carrier(model.tree());
    std::vector<std::uint32_t> numbers(model.senders());
    for (std::uint64_t value = 0; value < CALLS; value++) {
        if (random() % 2 == 0) {
            const auto it = carrier.pull(0, 0);
            const auto wanted = model.pull();
            CHECK(it ? wanted && item_of(it->packet, it->value) == *wanted : !wanted);
            continue;
        }
        const auto sender = static_cast<std::uint32_t>(random() % model.senders()), length = static_cast<std::uint32_t>(1 + random() % 1500);
        const Told wanted = model.offer({sender, numbers[sender]++, length, value});
        const auto it = carrier.offer(sender, length, Counted(value));
        CHECK(it.accepted() ? !wanted.is_refused : item_of(it.packet, *it.refused) == wanted.packet && wanted.is_refused);
        CHECK(it.evicted ? wanted.evicted && item_of(it.evicted->packet, it.evicted->value) == *wanted.evicted : !wanted.evicted);
    }
}

void run(unsigned seed) {
    const NoneLeft none;
    std::mt19937 random(seed);
    carry(random);
    const std::size_t rooms[] = {1, 2, 3, 7, 64, 200};
    Live live(random, rooms[random() % std::size(rooms)]);
    for (unsigned i = 0; i < CALLS; i++)
        live.call();
    // Half of the routers leave with what is inside.
    if (random() % 2 == 0)
        live.end();
}

} // namespace

void test_live_model() {
    for (unsigned seed = 0; seed < SEEDS; seed++) {
        const int before = failed;
        run(seed);
        if (failed != before)
            return static_cast<void>(std::fprintf(stderr, "random calls of seed %u\n", seed));
    }
}
