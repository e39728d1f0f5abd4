// Clickpull for C++17: records of what a router did.
//
// This header stands outside what is proved; tests/library tests it. clickpull.hpp includes it. It is all inline, over the records of
// clickpull.h, which says what a record has to have in it to mean what happened.
//
//     clickpull::Record record;
//     live.take_in(16, 64, [&](auto it) { record.send(it.packet); });
//     auto it = live.pull(0, now);
//     record.pulls(0, now);                  // also if the pull emitted nothing
//     file << record.text();
//     record.clear();
#ifndef CLICKPULL_RECORD_HPP
#define CLICKPULL_RECORD_HPP

#include "clickpull.hpp"

#include <algorithm>
#include <cstddef>
#include <cstdint>
#include <string>
#include <string_view>
#include <utility>

namespace clickpull {

// The script of what a router did: `clickpull script TREE RECORD` repeats it on one thread. It serves a Router, a Carrier and a
// LiveRouter alike, and needs none of them. The caller adds a line for each packet that was offered or taken, a refused one too, and for
// each pull that was made, in the order of the calls on the router. Of these calls,
//
//   - pull_many made as many pulls as packets were emitted, and one more if these are fewer than `count` and `each` didn't throw;
//   - drain made one pull at each moment from one tick after the device's latest on, up to its latest moment then;
//   - a take has offered all that it took. If `each` throws, take the others before the next pull.
//
// A call throws Error(CLK_AT_END) if a moment is 2^40 ticks or more, or the record would have more than CLK_MOST_LINES lines, and
// std::bad_alloc. Then it has added nothing. One that was moved from is empty.
class Record {
public:
    Record() = default;
    Record(const Record &) = default;
    Record(Record &&other) noexcept { swap(other); }

    Record &operator=(Record other) noexcept {
        swap(other);
        return *this;
    }

    ~Record() = default;

    // Adds the line of a packet that was offered or taken. Throws CLK_BAD_LENGTH for a packet without a length, which never was.
    void send(const Packet &packet) {
        const clk_offered it{packet, {}, CLK_ACCEPTED};
        offered(&it, 1);
    }

    // Adds the lines of `count` packets that were offered, as Router::offer_many fills them in. Throws CLK_BAD_LENGTH as send does, and
    // CLK_NULL for a null array that has any.
    void offered(const clk_offered *offered, std::size_t count) {
        add(count, [&](clk_record *it) { return clk_record_offered(it, offered, count); });
    }

    // Adds the lines of `count` pulls of the device, all at this moment in ticks: the one that was handed in, even if a later one counted.
    void pulls(std::uint16_t device, std::uint64_t moment, std::uint64_t count = 1) {
        add(count, [&](clk_record *it) { return clk_record_pulls(it, device, moment, count); });
    }

    // Adds the line that ends a record: all devices were drained, by rising number and each until nothing was left. The pulls began one
    // tick after this moment, in ticks, or after the device's latest one, whichever is later. No line may follow.
    void drain(std::uint64_t moment = 0) {
        add(1, [&](clk_record *it) { return clk_record_drain(it, moment); });
    }

    // What was added since the last clear. The next call that isn't const ends it.
    std::string_view text() const noexcept { return {text_.data(), used_}; }

    // Drops the text, as after it was written to a file. The number of lines stays, and so does the memory.
    void clear() noexcept { used_ = 0; }

    // How many lines were added since it was made.
    std::uint32_t lines() const noexcept { return lines_; }

private:
    // Adds `count` lines by `call`, a call of the library.
    template <class Call> void add(std::uint64_t count, Call call) {
        clk_status status = added_by(call);
        if (status == CLK_FULL) {
            // The library says that it is full only if the record may have so many lines more.
            text_.resize(std::max(2 * text_.size(), used_ + static_cast<std::size_t>(count) * CLK_MOST_LINE));
            status = added_by(call);
        }
        detail::need(status);
    }

    // What a call returns that adds lines where there is room.
    template <class Call> clk_status added_by(Call &call) noexcept {
        clk_record it{text_.data(), text_.size(), used_, lines_};
        const clk_status status = call(&it);
        used_ = it.used;
        lines_ = it.lines;
        return status;
    }

    void swap(Record &other) noexcept {
        text_.swap(other.text_);
        std::swap(used_, other.used_);
        std::swap(lines_, other.lines_);
    }

    std::string text_; // as long as there is room
    std::size_t used_ = 0;
    std::uint32_t lines_ = 0;
};

} // namespace clickpull

#endif
