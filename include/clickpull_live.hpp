// Clickpull for C++17: live routers, whose senders offer from threads of their own.
//
// This header stands outside what is proved; tests/library tests it. clickpull.hpp includes it. It is all inline, over the live routers of
// clickpull.h, which says what each call does, how an owner sleeps, and how calls are ordered between threads.
//
//     clickpull::LiveRouter<Job> live(text, 1024);
//     std::thread sender([inlet = live.inlet(0), &jobs]() mutable {
//         for (Job &job : jobs)
//             while (!inlet.offer(job.size(), std::move(job)))   // full: the job is still here
//                 pause_for_a_while();
//     });                                                        // the inlet closes when it is destroyed
//     while (!live.ended() || !live.drained()) {
//         live.take_in(16, 64, [&](auto it) { lost(it.refused, it.evicted); });
//         while (auto it = live.pull(0, now()))
//             transmit(it->packet, std::move(it->value));
//     }
//
// A `LiveRouter<T>` and each of its `Inlet<T>`s are moved and not copied. Each may be used by a thread of its own. Calls on one of them
// come one after the other, and a hand-over to another thread is ordered, as clickpull.h says: std::thread, std::jthread and std::mutex do
// that.
//
// VALUES. A value of type T travels with each packet. It comes back once: from a pull that emits the packet, or from a take that tells that
// the packet was refused or evicted. A value that doesn't come back, since its router or its inlet was destroyed before, is destroyed once
// both are: by the thread that destroys the later one. Each inlet has a table of values, which grows with the number of values that are
// inside at a time, and is not shrunk. A declared capacity alone allocates nothing.
//
// EXCEPTIONS. If T's move constructor or an allocation throws, `offer` throws that, nothing is offered, and the value is as its move
// constructor leaves it (strong guarantee). If T's move constructor throws while a value comes back, the packet is emitted, refused or
// evicted all the same, and this one value is destroyed (basic guarantee). No other value is affected. T's destructor must not throw.
#ifndef CLICKPULL_LIVE_HPP
#define CLICKPULL_LIVE_HPP

#include "clickpull.hpp"
#include "clickpull_values.hpp"

#include <algorithm>
#include <array>
#include <cstddef>
#include <cstdint>
#include <limits>
#include <memory>
#include <optional>
#include <string_view>
#include <type_traits>
#include <utility>
#include <vector>

namespace clickpull {

template <class T> class LiveRouter;

// The inlet of one sender: a ring with room for a fixed number of packets, through which they go to a LiveRouter, maybe on another thread.
// It closes when it is destroyed: what is in it is still taken, and nothing more comes. One that was closed or moved from is shut.
//
// It may outlive its router. Then nobody takes packets: offers are accepted until the ring is full, and find it full from then on.
template <class T> class Inlet {
public:
    Inlet(Inlet &&) noexcept = default;
    Inlet &operator=(Inlet &&) noexcept = default;

    // Offers the sender's next packet, of `length` bytes, with a value. Returns the packet's number: how many were accepted before it.
    // Returns nothing if the inlet is full: then the value is not moved from, and may be offered again later.
    //
    // Throws CLK_SHUT, CLK_BAD_LENGTH (`length` is not from 1 to 65,535), CLK_AT_END (4,294,967,295 packets were accepted), std::bad_alloc,
    // and what T's move constructor throws. Then nothing was offered.
    [[nodiscard]] std::optional<std::uint32_t> offer(std::uint32_t length, T &&value) {
        need_offer(length);
        if (sure_ == 0 && look_for_room() == 0)
            return std::nullopt;
        std::uint32_t number = 0;
        const bool is_put = table_->put(std::move(value), [&](std::uint32_t place) {
            detail::need(clk_inlet_offer(inlet_.c(), length, sender_ | place, &number));
        });
        if (!is_put)
            return std::nullopt;
        sure_--;
        accepted_ = number + 1;
        return number;
    }

    // How many packets are sure to fit: none of the next so many offers finds the inlet full. Throws CLK_SHUT.
    std::size_t room() { return look_for_room(); }

    // Ends the sender's packets. Closing again does nothing.
    void close() noexcept {
        clk_inlet_close(inlet_.c());
        table_.reset();
    }

    bool is_open() const noexcept { return inlet_.is_open(); }

private:
    friend class LiveRouter<T>;
    using Table = detail::ValueTable<T>;

    Inlet(detail::Owned<clk_inlet> inlet, std::shared_ptr<Table> table, std::uint64_t sender) noexcept
        : table_(std::move(table)), inlet_(std::move(inlet)), sender_(sender) {}

    // Throws if no offer of this length can be made, so that no value is moved for one.
    void need_offer(std::uint32_t length) const {
        if (!is_open())
            throw Error(CLK_SHUT);
        detail::need_length(length);
        if (accepted_ == std::numeric_limits<decltype(Packet::number)>::max())
            throw Error(CLK_AT_END);
    }

    std::size_t look_for_room() {
        detail::need(clk_inlet_room(inlet_.c(), &sure_));
        return sure_;
    }

    std::shared_ptr<Table> table_;
    detail::Owned<clk_inlet> inlet_;
    std::uint64_t sender_;       // the place of the sender, in the upper half of its tokens
    std::size_t sure_ = 0;       // how many packets are sure to fit
    std::uint32_t accepted_ = 0; // how many packets were accepted
};

// A router whose senders offer from threads of their own. One thread owns it: it takes packets from the inlets, and pulls the devices. One
// that was shut or moved from throws CLK_SHUT from each call.
//
// Nothing tells the senders if it is destroyed first. So close the inlets, take what is in them, and then destroy it.
template <class T> class LiveRouter {
    static_assert(std::is_object_v<T> && std::is_move_constructible_v<T>, "a value can be moved");
    static_assert(std::is_nothrow_destructible_v<T>, "a value is destroyed without throwing");

public:
    // A packet that a device emitted, with its value.
    struct Emitted {
        Packet packet;
        T value;
    };

    // A packet that a drain emitted, with the moment of the pull, in ticks, and with its value.
    struct Departed {
        Packet packet;
        std::uint64_t moment;
        T value;
    };

    // A packet that was evicted for a later one, maybe of another sender, with its value.
    struct Evicted {
        Packet packet;
        T value;
    };

    // A packet that was taken from its inlet and offered to its queue. A value that was refused or evicted is the caller's again.
    struct Taken {
        Packet packet;
        std::optional<T> refused;
        std::optional<Evicted> evicted;

        bool accepted() const noexcept { return !refused.has_value(); }
    };

    // Opens a live router of a tree in Click's language. Its inlets have room for `room` packets each, from 1 to CLK_MOST_ROOM. Throws
    // TextFault, CLK_BAD_ROOM, or std::bad_alloc.
    LiveRouter(std::string_view text, std::uint32_t room) {
        clk_fault fault{};
        const clk_status status = clk_live_open(text.data(), text.size(), room, live_.c(), &fault);
        detail::need_opened(status, fault, text);
        const std::vector<Queue> all = queues();
        for (const Account &it : accounts())
            senders_.push_back({it.sender, room + static_cast<std::size_t>(all[it.queue].capacity) + MOST_BETWEEN, nullptr});
    }

    // Moves also what an exception left over of a take.
    LiveRouter(LiveRouter &&other) noexcept
        : senders_(std::move(other.senders_)), taken_(other.taken_), told_(std::exchange(other.told_, 0)),
          filled_(std::exchange(other.filled_, 0)), live_(std::move(other.live_)) {}

    // Shuts the router that it had.
    LiveRouter &operator=(LiveRouter &&other) noexcept {
        if (this != &other) {
            shut();
            senders_ = std::move(other.senders_);
            taken_ = other.taken_;
            told_ = std::exchange(other.told_, 0);
            filled_ = std::exchange(other.filled_, 0);
            live_ = std::move(other.live_);
        }
        return *this;
    }

    // Frees the router, and with it the values of each sender whose inlet is closed. What is called afterwards throws CLK_SHUT. A take whose
    // `each` shuts its router hands no more packets, and returns how many it handed.
    void shut() noexcept {
        clk_live_close(live_.c());
        senders_.clear();
        told_ = filled_ = 0;
    }

    bool is_open() const noexcept { return live_.is_open(); }

    // Hands out the inlet of the sender with this number, once. Throws CLK_UNKNOWN_SENDER, CLK_HANDED_OUT, CLK_RECLAIMED, or
    // std::bad_alloc.
    [[nodiscard]] Inlet<T> inlet(std::uint32_t sender) {
        const auto at = std::find_if(senders_.begin(), senders_.end(), [&](const Sender &it) { return it.number == sender; });
        auto table = at == senders_.end() ? nullptr : std::make_shared<Table>(at->most);
        detail::Owned<clk_inlet> inlet;
        // It fails where there is no such sender.
        detail::need(clk_live_inlet(live_.c(), sender, inlet.c()));
        at->table = table;
        return Inlet<T>(std::move(inlet), std::move(table), static_cast<std::uint64_t>(at - senders_.begin()) << PLACE_BITS);
    }

    // Takes at most `count` packets from the inlet of the sender with this number, and offers each to the sender's queue, in order. Hands
    // each to `each`, as a Taken, and returns how many it handed. One call takes CLK_MOST_TAKEN packets at most.
    //
    // If `each` throws, the packet that it was handed is told; the others that were taken are handed to the next call that takes, and this
    // call takes no more.
    //
    // Throws CLK_UNKNOWN_SENDER, CLK_RECLAIMED or CLK_SHUT. Then none was taken.
    template <class Each> std::size_t take(std::uint32_t sender, std::size_t count, Each &&each) {
        return take_by(count, each, [&](clk_taken *taken, std::size_t most, std::size_t *given) {
            return clk_live_take(live_.c(), sender, taken, most, given);
        });
    }

    // Takes packets in one round over all senders, at most `most_each` from each; otherwise as `take`. If it takes as many as it can, the
    // round ends early, and the next one starts after the sender of its last packet. Otherwise, if it took a packet, the next
    // one starts one sender later.
    template <class Each> std::size_t take_in(std::size_t most_each, std::size_t count, Each &&each) {
        return take_by(count, each, [&](clk_taken *taken, std::size_t most, std::size_t *given) {
            return clk_live_take_in(live_.c(), most_each, taken, most, given);
        });
    }

    // Takes packets as `take_in` does, but leaves a packet in its inlet while its queue is full. So each packet that is taken is accepted,
    // and none is evicted.
    template <class Each> std::size_t take_what_fits(std::size_t most_each, std::size_t count, Each &&each) {
        return take_by(count, each, [&](clk_taken *taken, std::size_t most, std::size_t *given) {
            return clk_live_take_what_fits(live_.c(), most_each, taken, most, given);
        });
    }

    // Pulls the device once, at this moment in ticks. Throws CLK_UNKNOWN_DEVICE, CLK_AT_END, CLK_RECLAIMED or CLK_SHUT.
    [[nodiscard]] std::optional<Emitted> pull(std::uint16_t device, std::uint64_t moment) {
        clk_emitted it{};
        if (detail::is_none(clk_live_pull(live_.c(), device, moment, &it)))
            return std::nullopt;
        return Emitted{it.packet, value_of(it.token)};
    }

    // Pulls the device up to `count` times at this moment, up to the first pull that emits none. Hands each packet to `each`, as an
    // Emitted, and returns how many were emitted. If `each` throws, no more pulls are made.
    template <class Each> std::size_t pull_many(std::uint16_t device, std::uint64_t moment, std::size_t count, Each &&each) {
        std::size_t none = 0;
        if (count == 0)
            detail::is_none(clk_live_pull_many(live_.c(), device, moment, nullptr, 0, &none)); // throws as a pull does
        return detail::pull_each(count, [&] { return pull(device, moment); }, each);
    }

    // Pulls the device one tick apart until nothing is left for it inside, `pulls` pulls were made, or `count` packets were emitted. Hands
    // each packet to `each`, as a Departed. Returns how many were emitted, and whether nothing is left. If `each` throws, no more pulls are
    // made. What waits in the inlets is not drained: take it before. Throws as `pull` does, but CLK_AT_END only if no packet was emitted.
    template <class Each>
    Drained drain(std::uint16_t device, Each &&each, std::uint64_t pulls = std::numeric_limits<std::uint64_t>::max(),
                  std::size_t count = std::numeric_limits<std::size_t>::max()) {
        const auto drain = [&](clk_departed *it, std::size_t most, std::uint64_t most_pulls, std::size_t *given) {
            return clk_live_drain(live_.c(), device, it, most, most_pulls, given);
        };
        const auto hand = [&](const clk_departed &it) { each(Departed{it.packet, it.moment, value_of(it.token)}); };
        return detail::drain_each<clk_departed>(moment(device), count, pulls, drain, hand);
    }

    // Whether every inlet was closed, and each packet that one accepted was taken and handed to the caller. Take before asking: a take
    // finds out that an inlet was closed. Once it is so, it stays so.
    bool ended() const { return !detail::is_none(clk_live_ended(live_.c())) && told_ == filled_; }

    // Whether no packet is left inside, in a queue or held by a scheduler.
    bool drained() const { return !detail::is_none(clk_live_drained(live_.c())); }

    // Gives the router up, and hands the values of the packets inside to `each`: queue by queue, and the packet first that would have been
    // emitted first. Returns how many it handed. Other calls throw CLK_RECLAIMED from then on, but a take first hands what an exception left
    // over of an earlier one. Values that wait in the inlets are not among them: close these and take before. If `each` throws, the next call
    // goes on.
    template <class Each> std::size_t reclaim(Each &&each) {
        for (std::size_t handed = 0;; handed++) {
            std::uint64_t token = 0;
            std::size_t given = 0;
            detail::is_none(clk_live_reclaim(live_.c(), &token, 1, &given));
            if (given == 0)
                return handed;
            each(value_of(token));
        }
    }

    // The latest moment that was handed in at the device so far, in ticks.
    std::uint64_t moment(std::uint16_t device) const {
        std::uint64_t it = 0;
        detail::need(clk_live_moment(live_.c(), device, &it));
        return it;
    }

    // The earliest moment at which a pull of the device could emit a packet, in ticks; nothing if no packet is left for it inside. What
    // waits in the inlets is not looked at: take first.
    std::optional<std::uint64_t> due(std::uint16_t device) const {
        std::uint64_t it = 0;
        return detail::is_none(clk_live_due(live_.c(), device, &it)) ? std::nullopt : std::optional(it);
    }

    // How many packets are left for the device inside the router.
    std::uint64_t left(std::uint16_t device) const {
        std::uint64_t it = 0;
        detail::need(clk_live_left(live_.c(), device, &it));
        return it;
    }

    // How many devices there are. They are numbered from 0 as they are declared.
    std::size_t devices() const {
        need_usable();
        return clk_live_devices(live_.c());
    }

    // The account of each sender's packets that were taken, by rising numbers of senders.
    std::vector<Account> accounts() const {
        need_usable();
        return detail::all_of<Account>(clk_live_senders(live_.c()),
                                       [&](std::size_t place, Account *it) { return clk_live_account_at(live_.c(), place, it); });
    }

    // The queues, by number: in order of declaration.
    std::vector<Queue> queues() const {
        need_usable();
        return detail::all_of<Queue>(clk_live_queues(live_.c()), [&](std::size_t number, Queue *it) {
            return clk_live_queue_at(live_.c(), static_cast<std::uint16_t>(number), it);
        });
    }

private:
    using Table = detail::ValueTable<T>;

    struct Sender {
        std::uint32_t number;
        std::size_t most;             // how many values it has inside at a time, at most
        std::shared_ptr<Table> table; // none until its inlet is handed out
    };

    // A token has the place of the sender in `senders_` above so many bits, and below the place of the value in the sender's table.
    static constexpr unsigned PLACE_BITS = 32;

    // How many values of a sender may be elsewhere than in its inlet and its queue. DRRScheds hold at most one packet of the queue each,
    // and at most 64 schedulers are on a path (docs/FORMATS.md). Of at most CLK_MOST_TAKEN packets the value is still to be handed to the
    // caller by a take, and of one by a pull.
    static constexpr std::size_t MOST_BETWEEN = 64 + CLK_MOST_TAKEN + 1;

    // Throws CLK_SHUT or CLK_RECLAIMED if the router is shut or was given up: the library's counts are 0 then, and have no status.
    void need_usable() const { detail::is_none(clk_live_drained(live_.c())); }

    // Hands to `each` what `fill(taken, most, &given)` takes, or first what an exception left over of the latest take.
    template <class Each, class Fill> std::size_t take_by(std::size_t count, Each &each, Fill fill) {
        if (!is_open())
            throw Error(CLK_SHUT);
        if (told_ == filled_) {
            told_ = 0;
            detail::is_none(fill(taken_.data(), std::min(count, taken_.size()), &filled_));
        }
        std::size_t handed = 0;
        for (; handed < count && told_ != filled_; handed++)
            each(told(taken_[told_++]));
        return handed;
    }

    Taken told(const clk_taken &it) {
        Taken taken{it.packet, std::nullopt, std::nullopt};
        if (it.outcome == CLK_REFUSED)
            taken.refused.emplace(value_of(it.token));
        if (it.outcome == CLK_EVICTED)
            taken.evicted.emplace(Evicted{it.evicted, value_of(it.evicted_token)});
        return taken;
    }

    T value_of(std::uint64_t token) { return senders_[token >> PLACE_BITS].table->take(static_cast<std::uint32_t>(token)); }

    std::vector<Sender> senders_;
    std::array<clk_taken, CLK_MOST_TAKEN> taken_{};
    std::size_t told_ = 0, filled_ = 0; // how much of `taken_` was handed to the caller, and how much is filled
    detail::Owned<clk_live> live_;      // closes before the tables go
};

} // namespace clickpull

#endif
