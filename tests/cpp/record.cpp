// Tests of clickpull::Record. They stand outside what is proved.
#include "allocations.hpp"
#include "check.hpp"

#include <string>
#include <vector>

using clickpull::Record;

static_assert(std::is_copy_constructible_v<Record> && std::is_copy_assignable_v<Record>);
static_assert(std::is_nothrow_move_constructible_v<Record> && std::is_nothrow_move_assignable_v<Record>);

static void lines_are_added_in_order() {
    Record record;
    CHECK(record.text().empty() && record.lines() == 0);
    record.send({7, 3, 1500});
    record.pulls(0, 5);
    record.pulls(2, 9, 2);
    record.pulls(2, 9, 0);
    const clk_offered offered[] = {{{0, 1, 40}, {}, CLK_REFUSED}, {{0, 65535, 65535}, {}, CLK_ACCEPTED}};
    record.offered(offered, 2);
    record.offered(nullptr, 0);
    record.drain();
    CHECK(record.text() == "send 3 1500\npull 5\npull 9 2\npull 9 2\nsend 1 40\nsend 65535 65535\ndrain 0\n" && record.lines() == 7);
    record.clear();
    CHECK(record.text().empty() && record.lines() == 7);
    record.drain(8);
    CHECK(record.text() == "drain 8\n" && record.lines() == 8);
}

static void what_cannot_be_is_thrown() {
    Record record;
    record.pulls(0, CLK_END_OF_RECORDED_MOMENTS - 1);
    CHECK(thrown_by([&] { record.pulls(0, CLK_END_OF_RECORDED_MOMENTS); }) == CLK_AT_END);
    CHECK(thrown_by([&] { record.pulls(0, UINT64_MAX, 0); }) == CLK_AT_END);
    CHECK(thrown_by([&] { record.drain(CLK_END_OF_RECORDED_MOMENTS); }) == CLK_AT_END);
    CHECK(thrown_by([&] { record.pulls(0, 0, CLK_MOST_LINES); }) == CLK_AT_END);
    CHECK(thrown_by([&] { record.pulls(0, 0, UINT64_MAX); }) == CLK_AT_END);
    CHECK(thrown_by([&] { record.offered(nullptr, 1); }) == CLK_NULL);
    CHECK(record.text() == "pull 1099511627775\n" && record.lines() == 1);
}

static void lines_have_an_end() {
    Record record;
    for (std::uint32_t i = 0; i < 4; i++) {
        record.pulls(0, i, CLK_MOST_LINES / 4);
        CHECK(record.text().size() == 7 * (CLK_MOST_LINES / 4));
        record.clear();
    }
    CHECK(thrown_by([&] { record.send({0, 0, 1}); }) == CLK_AT_END);
    CHECK(thrown_by([&] { record.send({0, 0, 0}); }) == CLK_BAD_LENGTH);
    CHECK(thrown_by([&] { record.drain(); }) == CLK_AT_END);
    CHECK(record.text().empty() && record.lines() == CLK_MOST_LINES);
}

/* A long record takes memory in steps that grow, and what is cleared is used again. */
static void memory_grows_with_the_text() {
    Record record;
    const std::size_t before = allocated();
    std::string wanted;
    for (std::uint16_t i = 0; i < 5000; i++) {
        record.send({i, i, 1});
        wanted += "send " + std::to_string(i) + " 1\n";
    }
    CHECK(record.text() == wanted && record.lines() == 5000);
    record.clear();
    const std::size_t filled = allocated();
    for (std::uint16_t i = 0; i < 5000; i++)
        record.send({i, i, 1});
    CHECK(record.text() == wanted && allocated() == filled);
    CHECK(before == 0 || filled > before);
}

/* Whether a line is added without an allocation. If one fails, the record is as it was. */
static bool is_added_without_memory(Record &record) {
    const std::string before(record.text());
    const std::uint32_t lines = record.lines();
    const Refusing refusing(0);
    try {
        record.pulls(1, 23);
        return true;
    } catch (const std::bad_alloc &) {
        CHECK(record.text() == before && record.lines() == lines);
        return false;
    }
}

static void an_allocation_that_fails_adds_nothing() {
    Record record;
    std::string wanted;
    int refused = 0;
    for (std::uint32_t lines = 1; lines <= 100; lines++) {
        wanted += "pull 23 1\n";
        if (!is_added_without_memory(record)) {
            refused++;
            record.pulls(1, 23);
        }
        CHECK(record.text() == wanted && record.lines() == lines);
    }
    // valgrind has operators of its own, which refuse nothing.
    CHECK((refused > 3 && refused < 10) || allocated() == 0);
}

static void a_record_is_copied_and_moves() {
    Record one;
    one.send({0, 4, 9});
    Record other(one);
    other.pulls(0, 1);
    CHECK(one.text() == "send 4 9\n" && one.lines() == 1);
    CHECK(other.text() == "send 4 9\npull 1\n" && other.lines() == 2);
    Record third(std::move(other));
    CHECK(third.lines() == 2 && other.text().empty() && other.lines() == 0);
    other.drain();
    one = std::move(third);
    CHECK(one.text() == "send 4 9\npull 1\n" && one.lines() == 2 && other.text() == "drain 0\n");
    other = one;
    CHECK(other.text() == one.text() && other.lines() == 2);
    Record &same = one;
    one = std::move(same);
    CHECK(one.lines() == 2);
}

void test_record() {
    lines_are_added_in_order();
    what_cannot_be_is_thrown();
    lines_have_an_end();
    memory_grows_with_the_text();
    an_allocation_that_fails_adds_nothing();
    a_record_is_copied_and_moves();
}
