/* Runs a live router with a thread for each sender, and prints all that was done: live_threads TREE ROOM PACKETS SEED RECORD
 *
 * This thread makes calls by chance, and prints each with what it returned: the line of the call as live_calls.c has it, "=", and the answer.
 * Each sender offers up to so many packets. At the end lines "offered SENDER LENGTH TOKEN" say what the inlets accepted, in order. With an
 * odd SEED the tokens are reclaimed in the middle, and with every other of these the router is then closed while the senders go on.
 * The record of what was taken and pulled goes to RECORD. tests/soak judges what it prints. It stands outside what is proved. */
#define _POSIX_C_SOURCE 200809L
#include "recording.h"

#include <inttypes.h>
#include <pthread.h>
#include <stdatomic.h>
#include <stdbool.h>
#include <stdlib.h>
#include <string.h>
#include <time.h>

enum { MOST = 64, SENDERS = 256, BATCH = 70 };

struct sender {
    pthread_t thread;
    clk_inlet inlet;
    uint32_t number, packets, accepted;
    uint64_t state;
    clk_item *items; /* those that it offers, in order */
};

static clk_live live;
static struct sender senders[SENDERS];
static size_t count;
static atomic_bool is_over;
static uint64_t state, moment;

static void need(bool holds, const char *what) {
    if (!holds) {
        fprintf(stderr, "live_threads: %s\n", what);
        exit(1);
    }
}

/* The next number by chance, below a bound: Marsaglia's xorshift. */
static uint32_t chance(uint64_t *from, uint32_t bound) {
    *from ^= *from << 13;
    *from ^= *from >> 7;
    *from ^= *from << 17;
    return (uint32_t)(*from >> 20) % bound;
}

static void pause_for(long microseconds) {
    nanosleep(&(struct timespec){.tv_nsec = microseconds * 1000}, NULL);
}

/* Offers some of the packets that are left, alone or as a batch. */
static void offer_some(struct sender *me) {
    size_t done, most = 1 + chance(&me->state, BATCH), left = me->packets - me->accepted;
    clk_status status;
    if (chance(&me->state, 2) == 0) {
        uint32_t number = me->accepted;
        status = clk_inlet_offer(&me->inlet, me->items[number].length, me->items[number].token, &number);
        need(status == CLK_FULL || number == me->accepted, "another number");
        me->accepted += status == CLK_OK;
    } else {
        status = clk_inlet_offer_many(&me->inlet, &me->items[me->accepted], most < left ? most : left, &done);
        me->accepted += (uint32_t)done;
    }
    need(status == CLK_OK || status == CLK_FULL, clk_status_text(status));
    if (status == CLK_FULL)
        pause_for(20);
}

static void *sends(void *of) {
    struct sender *me = of;
    while (me->accepted < me->packets && !is_over) {
        offer_some(me);
        if (chance(&me->state, 50) == 0)
            pause_for(chance(&me->state, 300));
    }
    clk_inlet_close(&me->inlet);
    return NULL;
}

static void print_packet(clk_packet packet, uint64_t token) {
    printf(" %u#%u %u %" PRIu64, packet.sender, packet.number, packet.length, token);
}

/* Takes packets by one of three calls. Returns how many. */
static size_t take(void) {
    clk_taken taken[MOST];
    uint32_t how = chance(&state, 3), first = how == 0 ? senders[chance(&state, (uint32_t)count)].number : 1 + chance(&state, 20);
    size_t given = 0, most = 1 + chance(&state, MOST);
    clk_status status = how == 0   ? clk_live_take(&live, first, taken, most, &given)
                        : how == 1 ? clk_live_take_in(&live, first, taken, most, &given)
                                   : clk_live_take_what_fits(&live, first, taken, most, &given);
    RECORD(clk_record_taken(&record, taken, given));
    printf("%s %u %zu = %d %zu", how == 0 ? "take" : how == 1 ? "take_in" : "take_what_fits", first, most, status, given);
    for (size_t i = 0; i < given; i++) {
        print_packet(taken[i].packet, taken[i].token);
        printf(" %u", taken[i].outcome);
        print_packet(taken[i].evicted, taken[i].evicted_token);
    }
    printf("\n");
    return given;
}

/* Pulls a device some times. Returns how many packets it emitted. */
static size_t pull(void) {
    clk_emitted emitted[MOST];
    size_t given = 0, most = 1 + chance(&state, MOST);
    uint32_t device = chance(&state, (uint32_t)clk_live_devices(&live));
    moment += chance(&state, 3);
    clk_status status = clk_live_pull_many(&live, (uint16_t)device, moment, emitted, most, &given);
    record_pulls((uint16_t)device, moment, given, most);
    printf("pull_many %u %" PRIu64 " %zu = %d %zu", device, moment, most, status, given);
    for (size_t i = 0; i < given; i++)
        print_packet(emitted[i].packet, emitted[i].token);
    printf("\n");
    return given;
}

static void reclaim(void) {
    uint64_t tokens[MOST];
    clk_status status;
    do {
        size_t given = 0, most = 1 + chance(&state, MOST);
        status = clk_live_reclaim(&live, tokens, most, &given);
        printf("reclaim %zu = %d %zu", most, status, given);
        for (size_t i = 0; i < given; i++)
            printf(" %" PRIu64, tokens[i]);
        printf("\n");
    } while (status == CLK_NONE);
    need(status == CLK_OK, "tokens can't be reclaimed");
}

static bool is_done(void) {
    clk_status ended = clk_live_ended(&live), drained = clk_live_drained(&live);
    if (ended == CLK_OK)
        printf("ended = %d\ndrained = %d\n", ended, drained);
    return ended == CLK_OK && drained == CLK_OK;
}

static void print_account(size_t place) {
    clk_account it;
    need(clk_live_account_at(&live, place, &it) == CLK_OK, "no account");
    printf("account %zu = 0 %u %u", place, it.sender, it.queue);
    const clk_total totals[] = {it.accepted, it.refused, it.evicted, it.emitted};
    for (size_t i = 0; i < 4; i++)
        printf(" %" PRIu64 " %" PRIu64, totals[i].packets, totals[i].bytes);
    printf("\n");
}

/* Makes calls until all is done, or so many calls. */
static void serve(uint64_t calls) {
    for (uint64_t made = 0; made < calls && !is_done(); made++) {
        size_t done = take();
        done += pull();
        if (done == 0)
            pause_for(20);
    }
    for (size_t i = 0; i < count; i++)
        print_account(i);
}

/* Gives each sender its packets and its inlet. */
static void prepare(uint32_t packets, uint64_t seed) {
    for (size_t i = 0; i < count; i++) {
        struct sender *it = &senders[i];
        clk_account account;
        need(clk_live_account_at(&live, i, &account) == CLK_OK, "no account");
        *it = (struct sender){.number = account.sender, .state = seed * 1000 + i + 1};
        it->packets = chance(&it->state, packets + 1);
        it->items = calloc(it->packets + 1, sizeof *it->items);
        need(it->items != NULL, "no memory");
        for (uint32_t k = 0; k < it->packets; k++) {
            it->items[k].length = 1 + chance(&it->state, 2000);
            it->items[k].token = (uint64_t)chance(&it->state, UINT32_MAX) << 32 | k;
        }
        need(clk_live_inlet(&live, it->number, &it->inlet) == CLK_OK, "no inlet");
    }
}

static size_t read_text(const char *path, char *text, size_t room) {
    FILE *file = fopen(path, "rb");
    need(file != NULL, "the tree can't be read");
    size_t length = fread(text, 1, room, file);
    fclose(file);
    return length;
}

int main(int argc, char **argv) {
    static char text[1 << 20];
    need(argc == 6, "usage: live_threads TREE ROOM PACKETS SEED RECORD");
    need((recorded = fopen(argv[5], "wb")) != NULL, "the record can't be made");
    uint64_t seed = strtoull(argv[4], NULL, 10);
    state = seed * 2 + 1;
    size_t length = read_text(argv[1], text, sizeof text);
    need(clk_live_open(text, length, (uint32_t)strtoul(argv[2], NULL, 10), &live, NULL) == CLK_OK, "no router");
    count = clk_live_senders(&live);
    need(count > 0 && count <= SENDERS, "no senders, or too many");
    prepare((uint32_t)strtoul(argv[3], NULL, 10), seed);
    for (size_t i = 0; i < count; i++)
        need(pthread_create(&senders[i].thread, NULL, sends, &senders[i]) == 0, "no thread");
    serve(seed % 2 == 1 ? chance(&state, 200) : UINT64_MAX);
    if (seed % 2 == 1)
        reclaim();
    if (seed % 4 == 3) {
        clk_live_close(&live);
        pause_for(500);
    }
    is_over = true;
    for (size_t i = 0; i < count; i++) {
        need(pthread_join(senders[i].thread, NULL) == 0, "no join");
        for (uint32_t k = 0; k < senders[i].accepted; k++)
            printf("offered %u %u %" PRIu64 "\n", senders[i].number, senders[i].items[k].length, senders[i].items[k].token);
        free(senders[i].items);
    }
    clk_live_close(&live);
    end_record();
    return 0;
}
