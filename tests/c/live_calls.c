/* Makes calls on a live router, one a line, and prints what each returns: live_calls TREE ROOM CALLS RECORD
 *
 * It writes the record of what it takes and pulls to RECORD. It stands outside what is proved: it is there so that tests can compare the
 * calls with a model of them (tests/of_library/model.py, which has the words of the lines). All is on one thread. A line that is no call
 * ends it with status 1. */
#include "recording.h"

#include <inttypes.h>
#include <stdlib.h>
#include <string.h>

/* How many elements arrays have, and with which byte they are filled before a call. */
enum { MOST = 100, UNTOUCHED = 0xa5 };

static clk_live live;
static clk_inlet inlets[65536];

/* What a call fills in. */
static union {
    clk_taken taken[MOST];
    clk_emitted emitted[MOST];
    clk_departed departed[MOST];
    uint64_t tokens[MOST];
    unsigned char bytes[MOST * sizeof(clk_taken)];
} filled;

static void stop(const char *what) {
    fprintf(stderr, "live_calls: %s\n", what);
    exit(1);
}

/* The next number of the line. */
static uint64_t number(void) {
    const char *word = strtok(NULL, " ");
    if (!word)
        stop("a number is missing");
    return strtoull(word, NULL, 10);
}

/* How many elements of an array the line allows a call to fill. */
static size_t count(void) {
    size_t it = (size_t)number();
    if (it > MOST)
        stop("an array is too short");
    return it;
}

/* The inlet of a sender, also of one that is shut or that no router has. */
static clk_inlet *inlet(void) {
    return &inlets[number() % 65536];
}

static void print_packet(clk_packet packet, uint64_t token) {
    printf(" %u#%u %u %" PRIu64, packet.sender, packet.number, packet.length, token);
}

/* Whether all behind the first so many bytes is as it was. */
static void check_rest(size_t bytes) {
    for (size_t i = bytes; i < sizeof filled.bytes; i++) {
        if (filled.bytes[i] != UNTOUCHED)
            stop("more was filled in than is told");
    }
}

static void print_taken(clk_status status, size_t given) {
    check_rest(given * sizeof filled.taken[0]);
    RECORD(clk_record_taken(&record, filled.taken, given));
    printf("%d %zu", status, given);
    for (size_t i = 0; i < given; i++) {
        const clk_taken *it = &filled.taken[i];
        print_packet(it->packet, it->token);
        printf(" %u", it->outcome);
        print_packet(it->evicted, it->evicted_token);
    }
}

static void print_emitted(clk_status status, size_t given) {
    check_rest(given * sizeof filled.emitted[0]);
    printf("%d %zu", status, given);
    for (size_t i = 0; i < given; i++)
        print_packet(filled.emitted[i].packet, filled.emitted[i].token);
}

static void drain(void) {
    uint16_t device = (uint16_t)number();
    size_t room = count(), given = MOST;
    uint64_t before = 0, latest = 0;
    clk_live_moment(&live, device, &before);
    clk_status status = clk_live_drain(&live, device, filled.departed, room, number(), &given);
    clk_live_moment(&live, device, &latest);
    record_drained(device, before, latest);
    check_rest(given * sizeof filled.departed[0]);
    printf("%d %zu", status, given);
    for (size_t i = 0; i < given; i++) {
        printf(" %" PRIu64, filled.departed[i].moment);
        print_packet(filled.departed[i].packet, filled.departed[i].token);
    }
}

static void reclaim(void) {
    size_t given = MOST;
    clk_status status = clk_live_reclaim(&live, filled.tokens, count(), &given);
    check_rest(given * sizeof filled.tokens[0]);
    printf("%d %zu", status, given);
    for (size_t i = 0; i < given; i++)
        printf(" %" PRIu64, filled.tokens[i]);
}

static void print_value(clk_status status, uint64_t value) {
    printf("%d %" PRIu64, status, value);
}

static void hand_out(void) {
    uint32_t sender = (uint32_t)number();
    clk_inlet it;
    clk_status status = clk_live_inlet(&live, sender, &it);
    if (status == CLK_OK)
        inlets[sender] = it;
    printf("%d %d", status, it.at != NULL);
}

static void offer(void) {
    clk_inlet *to = inlet();
    uint32_t length = (uint32_t)number(), its = 7;
    clk_status status = clk_inlet_offer(to, length, number(), &its);
    print_value(status, its);
}

static void offer_many(void) {
    clk_inlet *to = inlet();
    size_t many = count(), done = MOST;
    clk_item items[MOST];
    for (size_t i = 0; i < many; i++) {
        items[i].length = (uint32_t)number();
        items[i].token = number();
    }
    clk_status status = clk_inlet_offer_many(to, items, many, &done);
    print_value(status, done);
}

static void take(const char *word) {
    uint32_t first = (uint32_t)number();
    size_t room = count(), given = MOST;
    clk_status status;
    if (strcmp(word, "take") == 0)
        status = clk_live_take(&live, first, filled.taken, room, &given);
    else if (strcmp(word, "take_in") == 0)
        status = clk_live_take_in(&live, first, filled.taken, room, &given);
    else
        status = clk_live_take_what_fits(&live, first, filled.taken, room, &given);
    print_taken(status, given);
}

static void pull(const char *word) {
    uint16_t device = (uint16_t)number();
    uint64_t moment = number();
    size_t given = 0, room = 1;
    clk_status status;
    if (strcmp(word, "pull") == 0) {
        status = clk_live_pull(&live, device, moment, filled.emitted);
        given = status == CLK_OK;
    } else {
        room = count();
        status = clk_live_pull_many(&live, device, moment, filled.emitted, room, &given);
    }
    if (status == CLK_OK || status == CLK_NONE)
        record_pulls(device, moment, given, room);
    print_emitted(status, given);
}

static void print_total(clk_total it) {
    printf(" %" PRIu64 " %" PRIu64, it.packets, it.bytes);
}

static void account(void) {
    clk_account it;
    clk_status status = clk_live_account_at(&live, (size_t)number(), &it);
    printf("%d", status);
    if (status != CLK_OK)
        return;
    printf(" %u %u", it.sender, it.queue);
    print_total(it.accepted);
    print_total(it.refused);
    print_total(it.evicted);
    print_total(it.emitted);
}

static void queue(void) {
    clk_queue it;
    clk_status status = clk_live_queue_at(&live, (uint16_t)number(), &it);
    printf("%d", status);
    if (status == CLK_OK)
        printf(" %" PRIu64 " %" PRIu64 " %u %u", it.capacity, it.held, it.device, it.front_drop);
}

/* Calls on an inlet. Returns whether the word is one of these. */
static int is_of_inlet(const char *word) {
    size_t room = 7;
    clk_status status;
    if (strcmp(word, "inlet") == 0)
        hand_out();
    else if (strcmp(word, "offer") == 0)
        offer();
    else if (strcmp(word, "offer_many") == 0)
        offer_many();
    else if (strcmp(word, "close") == 0)
        printf("%d", clk_inlet_close(inlet()));
    else if (strcmp(word, "room") == 0)
        status = clk_inlet_room(inlet(), &room), print_value(status, room);
    else
        return 0;
    return 1;
}

/* Calls that only look at the router. Returns whether the word is one of these. */
static int is_look(const char *word) {
    uint64_t value = 7;
    clk_status status;
    if (strcmp(word, "ended") == 0)
        printf("%d", clk_live_ended(&live));
    else if (strcmp(word, "drained") == 0)
        printf("%d", clk_live_drained(&live));
    else if (strcmp(word, "moment") == 0)
        status = clk_live_moment(&live, (uint16_t)number(), &value), print_value(status, value);
    else if (strcmp(word, "left") == 0)
        status = clk_live_left(&live, (uint16_t)number(), &value), print_value(status, value);
    else if (strcmp(word, "account") == 0)
        account();
    else if (strcmp(word, "queue") == 0)
        queue();
    else if (strcmp(word, "counts") == 0)
        printf("%zu %zu %zu", clk_live_senders(&live), clk_live_queues(&live), clk_live_devices(&live));
    else
        return 0;
    return 1;
}

static void carry_out(char *line) {
    const char *word = strtok(line, " ");
    memset(filled.bytes, UNTOUCHED, sizeof filled.bytes);
    printf("%s ", word);
    if (is_of_inlet(word) || is_look(word))
        ;
    else if (strncmp(word, "take", 4) == 0)
        take(word);
    else if (strncmp(word, "pull", 4) == 0)
        pull(word);
    else if (strcmp(word, "drain") == 0)
        drain();
    else if (strcmp(word, "reclaim") == 0)
        reclaim();
    else if (strcmp(word, "shut") == 0)
        clk_live_close(&live), printf("%d", live.at == NULL);
    else
        stop("a line is no call");
    printf("\n");
}

/* All that is in a file, with a zero behind it. */
static char *text_of(const char *path, size_t *length) {
    const size_t room = 1 << 20;
    FILE *file = fopen(path, "rb");
    char *text = malloc(room);
    if (!file || !text)
        stop("a file can't be read");
    *length = fread(text, 1, room - 1, file);
    text[*length] = 0;
    fclose(file);
    return text;
}

int main(int argc, char **argv) {
    size_t length;
    if (argc != 5 || !(recorded = fopen(argv[4], "wb")))
        stop("usage: live_calls TREE ROOM CALLS RECORD");
    char *text = text_of(argv[1], &length);
    if (clk_live_open(text, length, (uint32_t)strtoul(argv[2], NULL, 10), &live, NULL) != CLK_OK)
        stop("there is no router");
    free(text);
    text = text_of(argv[3], &length);
    for (char *line = text, *end; (end = strchr(line, '\n')); line = end + 1) {
        *end = 0;
        carry_out(line);
    }
    free(text);
    for (size_t i = 0; i < 65536; i++)
        clk_inlet_close(&inlets[i]);
    clk_live_close(&live);
    end_record();
    return 0;
}
