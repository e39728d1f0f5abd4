/* Tests of records: what lines they get, and what of them has no room. They stand outside what is proved. */
#include "check.h"

#include <string.h>

/* How many bytes the buffers have, and with which byte they are filled before a call. */
enum { ROOM = 256, UNTOUCHED = '#' };

static char buffer[ROOM];
static char million[CLK_MOST_LINES * 10];

/* An empty record in a buffer with so much room. */
static clk_record record_of(size_t room) {
    clk_record it = {buffer, room, 0, 0};
    memset(buffer, UNTOUCHED, sizeof buffer);
    return it;
}

/* Whether a record has this text and so many lines. */
static int has(const clk_record *it, const char *text, unsigned lines) {
    return it->used == strlen(text) && memcmp(it->text, text, it->used) == 0 && it->lines == lines;
}

static clk_offered offered_of(uint16_t sender, uint16_t length) {
    clk_offered it = {{7, sender, length}, {0, 0, 0}, CLK_REFUSED};
    return it;
}

static clk_taken taken_of(uint16_t sender, uint16_t length) {
    clk_taken it = {{7, sender, length}, 8, {0, 0, 0}, 0, CLK_ACCEPTED};
    return it;
}

/* Calls that add several lines, with the text that they add. */
static clk_status add_offered(clk_record *record) {
    const clk_offered offered[] = {offered_of(0, 1), offered_of(65535, 65535), offered_of(10, 1500)};
    return clk_record_offered(record, offered, 3);
}

static clk_status add_taken(clk_record *record) {
    const clk_taken taken[] = {taken_of(3, 40), taken_of(99, 999)};
    return clk_record_taken(record, taken, 2);
}

static clk_status add_pull(clk_record *record) {
    return clk_record_pulls(record, 0, 0, 1);
}

static clk_status add_pulls(clk_record *record) {
    return clk_record_pulls(record, 65535, CLK_END_OF_RECORDED_MOMENTS - 1, 2);
}

static clk_status add_drain(clk_record *record) {
    return clk_record_drain(record, 90);
}

static const struct {
    clk_status (*add)(clk_record *record);
    const char *text;
    unsigned lines;
} CALLS[] = {
    {add_offered, "send 0 1\nsend 65535 65535\nsend 10 1500\n", 3},
    {add_taken, "send 3 40\nsend 99 999\n", 2},
    {add_pull, "pull 0\n", 1},
    {add_pulls, "pull 1099511627775 65535\npull 1099511627775 65535\n", 2},
    {add_drain, "drain 90\n", 1},
};

enum { MANY = sizeof CALLS / sizeof *CALLS };

static void lines_are_added_in_order(void) {
    clk_record it = record_of(ROOM);
    char wanted[ROOM] = "";
    unsigned lines = 0;
    for (size_t i = 0; i < MANY; i++) {
        CHECK(CALLS[i].add(&it) == CLK_OK);
        strcat(wanted, CALLS[i].text);
        lines += CALLS[i].lines;
        CHECK(has(&it, wanted, lines));
    }
    // What was written to a file makes room, and its lines still count.
    it.used = 0;
    CHECK(add_pull(&it) == CLK_OK && has(&it, "pull 0\n", lines + 1));
    CHECK(strlen(CALLS[3].text) == 2 * CLK_MOST_LINE);
}

/* Of a call that adds lines behind "ab", for each room that is too small: nothing is added, and no byte behind the room is written. */
static void too_small_a_room_is_told(size_t call) {
    const size_t enough = 2 + strlen(CALLS[call].text);
    for (size_t room = 2; room < enough; room++) {
        clk_record it = record_of(room);
        memcpy(buffer, "ab", 2);
        it.used = 2;
        it.lines = 5;
        CHECK(CALLS[call].add(&it) == CLK_FULL);
        CHECK(has(&it, "ab", 5) && it.text == buffer && it.room == room);
        CHECK(buffer[room] == UNTOUCHED && memcmp(buffer + room, buffer + room + 1, ROOM - room - 1) == 0);
    }
    clk_record it = record_of(enough);
    it.used = 2;
    CHECK(CALLS[call].add(&it) == CLK_OK && it.used == enough && it.lines == CALLS[call].lines);
    CHECK(memcmp(buffer + 2, CALLS[call].text, enough - 2) == 0);
    CHECK(buffer[enough] == UNTOUCHED && memcmp(buffer + enough, buffer + enough + 1, ROOM - enough - 1) == 0);
}

/* A caller that lost count: more is used than there is room for. */
static void more_used_than_there_is_room_is_full(void) {
    clk_record it = record_of(8);
    it.used = 9;
    for (size_t i = 0; i < MANY; i++)
        CHECK(CALLS[i].add(&it) == CLK_FULL && it.used == 9 && it.lines == 0);
    it.used = SIZE_MAX;
    for (size_t i = 0; i < MANY; i++)
        CHECK(CALLS[i].add(&it) == CLK_FULL && it.used == SIZE_MAX && it.lines == 0);
    CHECK(buffer[0] == UNTOUCHED && memcmp(buffer, buffer + 1, ROOM - 1) == 0);
}

static void moments_have_an_end(void) {
    const uint64_t late[] = {CLK_END_OF_RECORDED_MOMENTS, CLK_END_OF_MOMENTS, UINT64_MAX};
    clk_record it = record_of(ROOM);
    for (size_t i = 0; i < sizeof late / sizeof *late; i++) {
        CHECK(clk_record_pulls(&it, 0, late[i], 1) == CLK_AT_END && has(&it, "", 0));
        CHECK(clk_record_drain(&it, late[i]) == CLK_AT_END && has(&it, "", 0));
    }
    CHECK(clk_record_pulls(&it, 0, CLK_END_OF_RECORDED_MOMENTS - 1, 1) == CLK_OK && has(&it, "pull 1099511627775\n", 1));
    CHECK(clk_record_drain(&it, CLK_END_OF_RECORDED_MOMENTS - 1) == CLK_OK && it.lines == 2);
    CHECK(has(&it, "pull 1099511627775\ndrain 1099511627775\n", 2));
}

/* Whether a record takes no more line, in whatever way, and is left as it was. */
static int is_at_its_end(clk_record *it) {
    const size_t used = it->used;
    int holds = 1;
    for (size_t i = 0; i < MANY; i++)
        holds = holds && CALLS[i].add(it) == CLK_AT_END && it->used == used && it->lines == CLK_MOST_LINES;
    return holds;
}

static void lines_have_an_end(void) {
    clk_record it = {million, sizeof million, 0, 0};
    CHECK(clk_record_pulls(&it, 0, 7, CLK_MOST_LINES + 1) == CLK_AT_END && has(&it, "", 0));
    CHECK(clk_record_pulls(&it, 0, 7, UINT64_MAX) == CLK_AT_END && has(&it, "", 0));
    CHECK(clk_record_pulls(&it, 0, 7, CLK_MOST_LINES - 1) == CLK_OK);
    CHECK(it.lines == CLK_MOST_LINES - 1 && it.used == 7 * it.lines);
    CHECK(memcmp(million, "pull 7\n", 7) == 0 && memcmp(million, million + 7, it.used - 7) == 0);
    CHECK(add_taken(&it) == CLK_AT_END && clk_record_pulls(&it, 0, 7, 2) == CLK_AT_END && it.lines == CLK_MOST_LINES - 1);
    CHECK(add_drain(&it) == CLK_OK && it.used == 7 * CLK_MOST_LINES + 2);
    CHECK(is_at_its_end(&it));
    it.used = 0;
    CHECK(is_at_its_end(&it));
    it.lines = UINT32_MAX;
    CHECK(add_pull(&it) == CLK_AT_END && it.lines == UINT32_MAX);
}

/* No packet and no pull are no line: they need no room. */
static void nothing_adds_nothing(void) {
    const clk_offered offered = offered_of(0, 1);
    const clk_taken taken = taken_of(0, 1);
    clk_record it = record_of(0);
    CHECK(clk_record_offered(&it, &offered, 0) == CLK_OK && clk_record_offered(&it, NULL, 0) == CLK_OK);
    CHECK(clk_record_taken(&it, &taken, 0) == CLK_OK && clk_record_taken(&it, NULL, 0) == CLK_OK);
    CHECK(clk_record_pulls(&it, 9, 9, 0) == CLK_OK);
    CHECK(has(&it, "", 0) && buffer[0] == UNTOUCHED);
    it.lines = CLK_MOST_LINES;
    CHECK(clk_record_offered(&it, NULL, 0) == CLK_OK && clk_record_pulls(&it, 0, 9, 0) == CLK_OK);
}

/* A packet without a length was never offered: a script with its line would have a fault. That is told before a record is at its end. */
static void a_length_of_0_is_told(void) {
    const clk_offered offered[] = {offered_of(0, 1), offered_of(0, 0)};
    const clk_taken taken[] = {taken_of(0, 1), taken_of(0, 0)};
    clk_record it = record_of(ROOM);
    CHECK(clk_record_offered(&it, offered, 2) == CLK_BAD_LENGTH && clk_record_taken(&it, taken, 2) == CLK_BAD_LENGTH);
    CHECK(has(&it, "", 0) && buffer[0] == UNTOUCHED);
    it.lines = CLK_MOST_LINES;
    CHECK(clk_record_offered(&it, offered, 2) == CLK_BAD_LENGTH && clk_record_offered(&it, offered, 1) == CLK_AT_END);
}

static void nulls_are_told_by_records(void) {
    const clk_offered offered = offered_of(0, 1);
    const clk_taken taken = taken_of(0, 1);
    clk_record it = {NULL, ROOM, 0, 0};
    for (size_t i = 0; i < MANY; i++)
        CHECK(CALLS[i].add(NULL) == CLK_NULL && CALLS[i].add(&it) == CLK_NULL);
    CHECK(clk_record_offered(&it, &offered, 0) == CLK_NULL && clk_record_taken(&it, &taken, 0) == CLK_NULL);
    it = record_of(ROOM);
    CHECK(clk_record_offered(&it, NULL, 1) == CLK_NULL && clk_record_taken(&it, NULL, 1) == CLK_NULL);
    CHECK(has(&it, "", 0));
}

/* A script of a router's calls does the same again. Here the lines are what was done. */
static void a_router_is_recorded(void) {
    clk_router router = opened("a :: Sender(4); b :: Sender(5); p :: Queue(1); q :: FrontDropQueue(1); s :: PrioSched; d :: ToDevice(link);"
                               "a -> p -> s -> d; b -> q -> [1] s;");
    clk_record it = record_of(ROOM);
    clk_packet packets[4];
    size_t given = 0;
    for (unsigned i = 0; i < 2; i++) {
        const clk_offered both[] = {offered(&router, 4, 10 + i), offered(&router, 5, 20 + i)};
        CHECK(clk_record_offered(&it, both, 2) == CLK_OK);
    }
    CHECK(clk_pull_many(&router, 0, 3, packets, 4, &given) == CLK_OK && given == 2);
    CHECK(clk_record_pulls(&it, 0, 3, given + 1) == CLK_OK);
    CHECK(has(&it, "send 4 10\nsend 5 20\nsend 4 11\nsend 5 21\npull 3\npull 3\npull 3\n", 7));
    clk_close(&router);
}

void test_records(void) {
    lines_are_added_in_order();
    for (size_t i = 0; i < MANY; i++)
        too_small_a_room_is_told(i);
    more_used_than_there_is_room_is_full();
    moments_have_an_end();
    lines_have_an_end();
    nothing_adds_nothing();
    a_length_of_0_is_told();
    nulls_are_told_by_records();
    a_router_is_recorded();
}
