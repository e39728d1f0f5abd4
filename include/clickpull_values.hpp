// Clickpull for C++17: the table in which clickpull_live.hpp keeps values between two threads. It is no part of what a caller uses.
//
// This header stands outside what is proved; tests/library tests it, by ThreadSanitizer too.
#ifndef CLICKPULL_VALUES_HPP
#define CLICKPULL_VALUES_HPP

#include <algorithm>
#include <array>
#include <atomic>
#include <cstddef>
#include <cstdint>
#include <limits>
#include <memory>
#include <new>
#include <utility>

namespace clickpull::detail {

// The values of one sender's packets that are inside. A value's place is its packet's token. One thread, the sender, puts values in, and
// another, the owner of the router, takes them out. Neither waits or locks, and the sender allocates only when the table grows.
//
// A place goes to the owner with its packet. The library orders this: who takes a packet sees all that the sender wrote before it offered
// it. So the owner sees the value, and the chunk that the place is in.
//
// A place that is free again comes back through a list whose links are in the places themselves. The owner appends at the end and the
// sender removes from the front. The two never write the same variable, since the place in front stays in the list until another place
// follows it:
//
//   - To append a place, the owner destroys its value, sets its `next` to NO_PLACE, and stores its number in the `next` of the last place,
//     with release. From then on the owner doesn't touch the place that was last before.
//   - To remove the front place, the sender loads its `next` with acquire. If it isn't NO_PLACE, the owner has left the front place for
//     good, all that the owner did to it is visible, and the place that `next` names is the new front.
//
// A ring in place of the list would be as long as all declared capacities, and would use all of that memory in turn.
template <class T> class ValueTable {
public:
    // A table of at most `most` values.
    explicit ValueTable(std::size_t most) : most_(std::min(most, MOST)) { chunks_[0] = std::make_unique<Place[]>(FIRST_CHUNK); }

    ValueTable(const ValueTable &) = delete;
    ValueTable &operator=(const ValueTable &) = delete;

    // Destroys the values that are left. The sender and the owner have both left the table.
    ~ValueTable() {
        for (std::uint32_t number = 0; number < used_; number++)
            if (at(number).is_full)
                std::destroy_at(std::addressof(at(number).value));
    }

    // For the sender: moves the value into a free place, and calls `send` with the place's number, which may let the owner take it at once.
    // Returns false if no place is free, and leaves the value. If T's move constructor, an allocation or `send` throws, the place is free
    // again.
    template <class Send> bool put(T &&value, Send &&send) {
        Place &front = at(front_);
        const std::uint32_t after = front.next.load(std::memory_order_acquire);
        const std::uint32_t number = after != NO_PLACE ? front_ : used_;
        if (number > most_)
            return false;
        Place &place = after != NO_PLACE ? front : new_place();
        ::new (static_cast<void *>(std::addressof(place.value))) T(std::move(value));
        place.is_full = true;
        try {
            send(number);
        } catch (...) {
            std::destroy_at(std::addressof(place.value));
            place.is_full = false;
            throw;
        }
        if (after != NO_PLACE)
            front_ = after;
        else
            used_++;
        return true;
    }

    // For the owner: moves the value out of a place, and frees the place, also if T's move constructor throws.
    T take(std::uint32_t number) {
        Place &place = at(number);
        const Freeing freeing{*this, place, number};
        return std::move(place.value);
    }

private:
    // Until it is used, and again while it is in the list, a place has no value.
    struct Place {
        Place() noexcept {}
        ~Place() {}

        std::atomic<std::uint32_t> next{NO_PLACE};
        bool is_full = false;
        union {
            T value;
        };
    };

    struct Freeing {
        ValueTable &table;
        Place &place;
        std::uint32_t number;

        Freeing(ValueTable &of, Place &at, std::uint32_t its_number) noexcept : table(of), place(at), number(its_number) {}
        Freeing(const Freeing &) = delete;
        Freeing &operator=(const Freeing &) = delete;
        ~Freeing() { table.free(place, number); }
    };

    // Chunk N has FIRST_CHUNK << N places. So a place never moves, and no more than about half of all places were never used.
    static constexpr unsigned FIRST_BITS = 4, CHUNKS = 28;
    static constexpr std::size_t FIRST_CHUNK = std::size_t{1} << FIRST_BITS;
    static constexpr std::uint32_t NO_PLACE = std::numeric_limits<std::uint32_t>::max();
    static constexpr std::size_t MOST = NO_PLACE - FIRST_CHUNK - 1;
    static constexpr std::size_t CACHE_LINE = 64;

    static unsigned chunk_of(std::uint32_t number) noexcept {
        return 31U - FIRST_BITS - static_cast<unsigned>(__builtin_clz(number + static_cast<std::uint32_t>(FIRST_CHUNK)));
    }

    Place &at(std::uint32_t number) const noexcept {
        const unsigned chunk = chunk_of(number);
        return chunks_[chunk][number + FIRST_CHUNK - (FIRST_CHUNK << chunk)];
    }

    // The first place that was never used, in a new chunk if the others are at their end.
    Place &new_place() {
        std::unique_ptr<Place[]> &chunk = chunks_[chunk_of(used_)];
        if (!chunk)
            chunk = std::make_unique<Place[]>(FIRST_CHUNK << chunk_of(used_));
        return at(used_);
    }

    void free(Place &place, std::uint32_t number) noexcept {
        std::destroy_at(std::addressof(place.value));
        place.is_full = false;
        place.next.store(NO_PLACE, std::memory_order_relaxed);
        at(last_).next.store(number, std::memory_order_release);
        last_ = number;
    }

    const std::size_t most_;
    std::array<std::unique_ptr<Place[]>, CHUNKS> chunks_;
    // The sender's. The list begins with place 0, which no value has had yet.
    alignas(CACHE_LINE) std::uint32_t front_ = 0;
    std::uint32_t used_ = 1;
    // The owner's.
    alignas(CACHE_LINE) std::uint32_t last_ = 0;
};

} // namespace clickpull::detail

#endif
