// Clickpull for C++17: bounded queues and the tree of schedulers through which a link pulls them.
//
// This header stands outside what is proved; tests/library tests it. It is all inline, over clickpull.h, which says what each call does and
// what the caller owes. Link with -lclickpull (pkg-config clickpull).
//
//     clickpull::Carrier<std::string> router("a :: Sender(0); q :: Queue(4); d :: ToDevice(link); a -> q -> d;");
//     if (auto it = router.offer(0, 1500, "a packet of my own"); !it.accepted())
//         try_later(*it.refused);
//     while (auto it = router.pull(0, now))
//         transmit(it->value);
//
// A `Router` carries packets, and a `Carrier<T>` carries a value of the caller's with each packet. A `LiveRouter<T>` takes packets with
// values from threads (clickpull_live.hpp, which this header includes). All are moved and not copied, and close their router when they are
// destroyed. A `Record` notes what any of them did as a script (clickpull_record.hpp, which this header includes).
//
// A call that can't be made throws. It throws `Error` if the router is shut, a sender or device is unknown, a length is not from 1 to
// 65,535, or a number is at its end. It throws `TextFault` if a text makes no router, and std::bad_alloc if an allocation fails. A call that
// throws leaves all as it was, but for a drain at the end of moments, which keeps the pulls that it made before. That a packet is refused,
// or that none comes, is no error, and no exception.
#ifndef CLICKPULL_HPP
#define CLICKPULL_HPP

#if __cplusplus < 201703L
#error "clickpull.hpp needs C++17 or a later C++: compile with -std=c++17 or above"
#endif

#include "clickpull.h"

#include <algorithm>
#include <cassert>
#include <cstddef>
#include <cstdint>
#include <deque>
#include <limits>
#include <memory>
#include <new>
#include <optional>
#include <stdexcept>
#include <string>
#include <string_view>
#include <type_traits>
#include <utility>
#include <vector>

namespace clickpull {

using Packet = clk_packet;
using Departure = clk_departure;
using Total = clk_total;
using Account = clk_account;
using Queue = clk_queue;

// A call that couldn't be made.
class Error : public std::runtime_error {
public:
    explicit Error(clk_status status) : Error(status, clk_status_text(status)) {}

    // What the call answered.
    clk_status status() const noexcept { return status_; }

protected:
    Error(clk_status status, const std::string &what) : std::runtime_error(what), status_(status) {}

private:
    clk_status status_;
};

// A text that makes no router.
class TextFault : public Error {
public:
    TextFault(clk_fault fault, std::string_view text)
        : TextFault(fault, place_in(text.substr(0, fault.offset)), std::make_shared<const std::string>(explained(fault, text))) {}

    // Its number and name, as in docs/FORMATS.md, and its place, in bytes from 0. A fault without a place, NoDevice or TooLarge, has offset 0.
    std::uint32_t number() const noexcept { return fault_.number; }
    const char *name() const noexcept { return clk_fault_name(fault_.number); }
    std::uint32_t offset() const noexcept { return fault_.offset; }

    // Its place by line and column, both from 1; columns are bytes. Both are 1 for a fault without a place.
    std::size_t line() const noexcept { return place_.line; }
    std::size_t column() const noexcept { return place_.column; }

    // What is wrong in lines for a person: the place, the line of the text with a caret, and what was expected, as clk_explain has them.
    const std::string &explanation() const noexcept { return *explanation_; }

private:
    struct Place {
        std::size_t line, column;
    };

    TextFault(clk_fault fault, Place place, std::shared_ptr<const std::string> explanation)
        : Error(CLK_FAULT, message(fault, place)), fault_(fault), place_(place), explanation_(std::move(explanation)) {}

    static std::string explained(clk_fault fault, std::string_view text) {
        std::size_t needed = 0;
        clk_explain(text.data(), text.size(), &fault, nullptr, 0, &needed);
        std::string lines(needed, '\0');
        clk_explain(text.data(), text.size(), &fault, lines.data(), lines.size(), &needed);
        return lines;
    }

    static Place place_in(std::string_view before) {
        const auto lines = static_cast<std::size_t>(std::count(before.begin(), before.end(), '\n'));
        const auto last = before.rfind('\n');
        return {lines + 1, last == std::string_view::npos ? before.size() + 1 : before.size() - last};
    }

    static std::string message(clk_fault fault, Place place) {
        const std::string named = "fault " + std::to_string(fault.number) + ": " + clk_fault_name(fault.number);
        if (fault.number == 1 || fault.number == 11 || fault.number == 18)
            return named; // these have no place
        return named + " at line " + std::to_string(place.line) + ", column " + std::to_string(place.column);
    }

    clk_fault fault_;
    Place place_;
    std::shared_ptr<const std::string> explanation_; // shared, so that a copy doesn't throw
};

// How far a drain came: `count` packets were emitted, and `all` says whether none is left.
struct Drained {
    std::size_t count;
    bool all;
};

// What the classes share; no part of what a caller uses.
namespace detail {

inline void need(clk_status status) {
    if (status != CLK_OK)
        throw Error(status);
}

// Whether a call returned CLK_NONE. Throws for all but that and CLK_OK.
inline bool is_none(clk_status status) {
    if (status != CLK_NONE)
        need(status);
    return status == CLK_NONE;
}

// Throws unless a packet may have this length. The library tests it before all else; so do those who have something to do before they ask it.
inline void need_length(std::uint32_t length) {
    if (length == 0 || length > std::numeric_limits<decltype(Packet::length)>::max())
        throw Error(CLK_BAD_LENGTH);
}

// Throws unless a router was opened.
inline void need_opened(clk_status status, clk_fault fault, std::string_view text) {
    if (status == CLK_FAULT && fault.number == 1)
        throw std::bad_alloc();
    if (status == CLK_FAULT)
        throw TextFault(fault, text);
    need(status);
}

// Calls `pull` up to `count` times, up to the first that gives none, and hands what each gives to `each`. Returns how many it handed.
template <class Pull, class Each> std::size_t pull_each(std::size_t count, Pull pull, Each &each) {
    std::size_t given = 0;
    for (; given < count; given++) {
        auto it = pull();
        if (!it)
            break;
        each(std::move(*it));
    }
    return given;
}

// How far a drain came that emitted so many. That moments are at their end is an error only if none were emitted.
inline Drained drained(clk_status status, std::size_t count) {
    const bool some_left = (status == CLK_AT_END && count != 0) || is_none(status);
    return {count, !some_left};
}

// Drains packet by packet, so that an exception of the caller's loses none. `drain(&departure, most, pulls, &given)` is the library's call,
// and `moment` the latest moment of the device: one pull is made a tick.
template <class Departure, class Drain, class Hand>
Drained drain_each(std::uint64_t moment, std::size_t count, std::uint64_t pulls, Drain drain, Hand hand) {
    for (std::size_t emitted = 0;; emitted++) {
        Departure it{};
        std::size_t given = 0;
        const clk_status status = drain(&it, emitted < count ? 1U : 0U, pulls, &given);
        if (given == 0)
            return drained(status, emitted);
        pulls -= it.moment - moment;
        moment = it.moment;
        hand(it);
    }
}

// All of `count` things, each of which `ask(place, &thing)` fills in.
template <class Thing, class Ask> std::vector<Thing> all_of(std::size_t count, Ask ask) {
    std::vector<Thing> all(count);
    for (std::size_t place = 0; place < count; place++)
        need(ask(place, &all[place]));
    return all;
}

inline void close(clk_router *it) noexcept { clk_close(it); }
inline void close(clk_live *it) noexcept { clk_live_close(it); }
inline void close(clk_inlet *it) noexcept { clk_inlet_close(it); }

// Owns a clk_router, a clk_live or a clk_inlet: it is moved and not copied, and closed when it is destroyed.
template <class Handle> class Owned {
public:
    Owned() = default;
    Owned(Owned &&other) noexcept : it_(std::exchange(other.it_, Handle{nullptr})) {}

    Owned &operator=(Owned &&other) noexcept {
        if (this != &other) {
            close(&it_);
            it_ = std::exchange(other.it_, Handle{nullptr});
        }
        return *this;
    }

    Owned(const Owned &) = delete;
    Owned &operator=(const Owned &) = delete;

    ~Owned() { close(&it_); }

    bool is_open() const noexcept { return it_.at != nullptr; }
    Handle *c() noexcept { return &it_; }
    const Handle *c() const noexcept { return &it_; }

private:
    Handle it_{nullptr};
};

} // namespace detail

// A packet that was offered, and the outcome.
struct Offered {
    Packet packet;                 // the packet, with its number
    bool accepted;                 // whether its queue took it
    std::optional<Packet> evicted; // the packet that its queue evicted for it, maybe of another sender
};

// How far a call for many came: `count` were offered, and `status` is CLK_OK or says why the next one can't be.
struct Done {
    std::size_t count;
    clk_status status;
};

// A router. One that was moved from is shut.
class Router {
public:
    // The router of a tree in Click's language. Throws TextFault, or std::bad_alloc.
    explicit Router(std::string_view text) {
        clk_fault fault{};
        const clk_status status = clk_open(text.data(), text.size(), router_.c(), &fault);
        detail::need_opened(status, fault, text);
    }

    // Frees all that it has. What is called afterwards throws CLK_SHUT.
    void shut() noexcept { clk_close(router_.c()); }

    bool is_open() const noexcept { return router_.is_open(); }

    // The sender offers its next packet, of so many bytes.
    [[nodiscard]] Offered offer(std::uint32_t sender, std::uint32_t length) {
        clk_offered it{};
        detail::need(clk_offer(router_.c(), sender, length, &it));
        return {it.packet, it.outcome != CLK_REFUSED, it.outcome == CLK_EVICTED ? std::optional<Packet>(it.evicted) : std::nullopt};
    }

    // Offers many, up to the first that can't be; fills as many elements of `offered`. Throws for a shut router and for nulls alone.
    [[nodiscard]] Done offer_many(const clk_offer_of *offers, std::size_t count, clk_offered *offered) {
        Done it{0, CLK_OK};
        it.status = clk_offer_many(router_.c(), offers, count, offered, &it.count);
        if (it.status == CLK_SHUT || it.status == CLK_NULL)
            throw Error(it.status);
        return it;
    }

    // Pulls the device once, at this moment in ticks.
    [[nodiscard]] std::optional<Packet> pull(std::uint16_t device, std::uint64_t moment) {
        Packet packet{};
        if (detail::is_none(clk_pull(router_.c(), device, moment, &packet)))
            return std::nullopt;
        return packet;
    }

    // Pulls the device up to `count` times at this moment, up to the first pull that emits none. Fills in the packets, and returns how many.
    [[nodiscard]] std::size_t pull_many(std::uint16_t device, std::uint64_t moment, Packet *packets, std::size_t count) {
        std::size_t given = 0;
        detail::is_none(clk_pull_many(router_.c(), device, moment, packets, count, &given));
        return given;
    }

    // Pulls the device one tick apart until no packet is left for it, `pulls` pulls were made, `count` packets were emitted, or the next
    // moment would be at its end. It throws at that end only if no packet was emitted.
    [[nodiscard]] Drained drain(std::uint16_t device, Departure *departures, std::size_t count,
                                std::uint64_t pulls = std::numeric_limits<std::uint64_t>::max()) {
        std::size_t given = 0;
        const clk_status status = clk_drain(router_.c(), device, departures, count, pulls, &given);
        return detail::drained(status, given);
    }

    // The greatest moment handed in at the device so far, in ticks.
    std::uint64_t moment(std::uint16_t device) const {
        std::uint64_t it = 0;
        detail::need(clk_moment(router_.c(), device, &it));
        return it;
    }

    // The earliest moment at which a pull of the device could emit a packet, in ticks, as things stand; none if no packet is left for it.
    std::optional<std::uint64_t> due(std::uint16_t device) const {
        std::uint64_t it = 0;
        return detail::is_none(clk_due(router_.c(), device, &it)) ? std::nullopt : std::optional(it);
    }

    // How many packets are left for the device, in queues and held by schedulers.
    std::uint64_t left(std::uint16_t device) const {
        std::uint64_t it = 0;
        detail::need(clk_left(router_.c(), device, &it));
        return it;
    }

    // How many devices there are. They are numbered from 0 as they are declared.
    std::size_t devices() const {
        need_open();
        return clk_devices(router_.c());
    }

    // The account of each sender, by rising numbers of senders.
    std::vector<Account> accounts() const {
        need_open();
        return detail::all_of<Account>(clk_senders(router_.c()),
                                       [&](std::size_t place, Account *it) { return clk_account_at(router_.c(), place, it); });
    }

    // The name of each sender's element in the tree, by rising numbers of senders.
    std::vector<std::string> sender_names() const {
        need_open();
        std::vector<std::string> names(clk_senders(router_.c()));
        for (std::size_t place = 0; place < names.size(); place++) {
            std::size_t needed = 0;
            clk_sender_name(router_.c(), place, nullptr, 0, &needed);
            names[place].resize(needed);
            detail::need(clk_sender_name(router_.c(), place, &names[place][0], needed, &needed));
        }
        return names;
    }

    // The queues, by number: in order of declaration.
    std::vector<Queue> queues() const {
        need_open();
        return detail::all_of<Queue>(clk_queues(router_.c()), [&](std::size_t number, Queue *it) {
            return clk_queue_at(router_.c(), static_cast<std::uint16_t>(number), it);
        });
    }

    // The router as C has it. It stays this one's.
    clk_router *c() noexcept { return router_.c(); }

private:
    // Throws CLK_SHUT if the router is shut: the library's counts are 0 then, and have no status.
    void need_open() const {
        if (!is_open())
            throw Error(CLK_SHUT);
    }

    detail::Owned<clk_router> router_;
};

// A router whose packets carry values of the caller's: with each a T, which is moved in by an offer and moved out by a pull. They are kept
// in a list for each sender, and taken from its front, since packets of one sender are emitted in the order in which they were offered. A T
// that is moved may not throw, so that none is lost.
template <class T> class Carrier {
    static_assert(std::is_nothrow_move_constructible_v<T> && std::is_nothrow_move_assignable_v<T>, "a value is moved without throwing");

public:
    // A packet that was emitted, with its value and the moment of the pull, in ticks.
    struct Carried {
        Packet packet;
        std::uint64_t moment;
        T value;
    };

    // A packet that was evicted for a later one, with its value.
    struct Evicted {
        Packet packet;
        T value;
    };

    // The outcome of an offer. A value that was refused or evicted is the caller's again.
    struct Offer {
        Packet packet;
        std::optional<T> refused;
        std::optional<Evicted> evicted;

        bool accepted() const noexcept { return !refused.has_value(); }
    };

    // The router of a tree in Click's language. Throws TextFault, or std::bad_alloc.
    explicit Carrier(std::string_view text) : router_(text) {
        for (const Account &it : router_.accounts())
            places_.push_back(it.sender);
        // A vector that grows may want to copy its lists, which a T that is moved alone forbids. One that is made as long as it is doesn't.
        lists_ = std::vector<List>(places_.size());
    }

    Carrier(Carrier &&) noexcept = default;

    // Closes the router that it had, and destroys its values.
    Carrier &operator=(Carrier &&other) noexcept {
        if (this != &other) {
            router_ = std::move(other.router_);
            places_ = std::move(other.places_);
            lists_ = std::move(other.lists_);
        }
        return *this;
    }

    // The sender offers its next packet, of so many bytes, with this value. If the call throws, the value is the caller's as it was.
    [[nodiscard]] Offer offer(std::uint32_t sender, std::uint32_t length, T &&value) {
        if (router_.is_open())
            detail::need_length(length);
        List &list = list_of(sender);
        // The value goes into the list first, so that nothing is allocated once the packet was offered. The list allocates, and then moves it.
        list.emplace_back(std::move(value));
        std::optional<Offered> offered;
        try {
            offered = router_.offer(sender, length);
        } catch (...) {
            value = std::move(list.back().value);
            list.pop_back();
            throw;
        }
        list.back().number = offered->packet.number;
        Offer it{offered->packet, std::nullopt, std::nullopt};
        if (offered->evicted)
            it.evicted.emplace(Evicted{*offered->evicted, take_evicted(*offered->evicted)});
        if (!offered->accepted) {
            it.refused.emplace(std::move(list.back().value));
            list.pop_back();
        }
        return it;
    }

    // Offers a copy of the value. Throws what T's copy constructor throws, too.
    template <class Copied = T, std::enable_if_t<std::is_copy_constructible_v<Copied>, int> = 0>
    [[nodiscard]] Offer offer(std::uint32_t sender, std::uint32_t length, const T &value) {
        T copy(value);
        return offer(sender, length, std::move(copy));
    }

    // Pulls the device once, at this moment in ticks.
    [[nodiscard]] std::optional<Carried> pull(std::uint16_t device, std::uint64_t moment) {
        const std::optional<Packet> packet = router_.pull(device, moment);
        if (!packet)
            return std::nullopt;
        return Carried{*packet, router_.moment(device), take_front(*packet)};
    }

    // Pulls the device up to `count` times at this moment, up to the first pull that emits none. Hands each packet to `each`, and returns
    // how many were emitted. If `each` throws, no packet is held back.
    template <class Each> std::size_t pull_many(std::uint16_t device, std::uint64_t moment, std::size_t count, Each &&each) {
        if (count == 0)
            return router_.pull_many(device, moment, nullptr, 0); // throws as a pull does
        return detail::pull_each(count, [&] { return pull(device, moment); }, each);
    }

    // Pulls the device one tick apart until no packet is left for it, `pulls` pulls were made, or `count` packets were emitted. Hands each
    // packet to `each`. Returns how many were emitted, and whether none is left. If `each` throws, no packet is held back.
    template <class Each>
    Drained drain(std::uint16_t device, Each &&each, std::uint64_t pulls = std::numeric_limits<std::uint64_t>::max(),
                  std::size_t count = std::numeric_limits<std::size_t>::max()) {
        const auto drain = [&](Departure *it, std::size_t most, std::uint64_t most_pulls, std::size_t *given) {
            return clk_drain(router_.c(), device, it, most, most_pulls, given);
        };
        const auto hand = [&](const Departure &it) { each(Carried{it.packet, it.moment, take_front(it.packet)}); };
        return detail::drain_each<Departure>(router_.moment(device), count, pulls, drain, hand);
    }

    // How many values of a sender are here: in its queue, or held by a scheduler.
    std::size_t kept(std::uint32_t sender) { return list_of(sender).size(); }

    // The router, to ask about it.
    const Router &router() const noexcept { return router_; }

private:
    struct Own {
        explicit Own(T &&its_value) noexcept : value(std::move(its_value)) {}

        std::uint32_t number = 0;
        T value;
    };

    using List = std::deque<Own>;

    // Places go by rising numbers of senders. Throws CLK_UNKNOWN_SENDER, or CLK_SHUT where it was moved from.
    List &list_of(std::uint32_t sender) {
        if (!router_.is_open())
            throw Error(CLK_SHUT);
        const auto place = std::lower_bound(places_.begin(), places_.end(), sender);
        if (place == places_.end() || *place != sender)
            throw Error(CLK_UNKNOWN_SENDER);
        return lists_[static_cast<std::size_t>(place - places_.begin())];
    }

    T take_front(Packet packet) {
        List &list = list_of(packet.sender);
        assert(!list.empty() && list.front().number == packet.number);
        T value = std::move(list.front().value);
        list.pop_front();
        return value;
    }

    // It stands at the front, or behind those that schedulers hold.
    T take_evicted(Packet packet) {
        List &list = list_of(packet.sender);
        const auto at = std::find_if(list.begin(), list.end(), [&](const Own &it) { return it.number == packet.number; });
        assert(at != list.end());
        T value = std::move(at->value);
        list.erase(at);
        return value;
    }

    Router router_;
    std::vector<std::uint32_t> places_;
    std::vector<List> lists_;
};

} // namespace clickpull

#include "clickpull_live.hpp"
#include "clickpull_record.hpp"

#endif
