/* Four senders on threads of their own, and a link that this thread serves. This is C and no part of what is proved.
 *
 * Each message is a buffer of its sender's. Its address travels with the packet as the token, and whoever gets the token back frees it. */
#define _POSIX_C_SOURCE 200809L
#include "clickpull.h"
#include "waiter.h"

#include <inttypes.h>
#include <pthread.h>
#include <stdio.h>
#include <stdlib.h>
#include <string.h>
#include <time.h>

/* TICK is in microseconds. A sender pauses after each BURST messages, and an inlet has room for ROOM. */
enum { SENDERS = 4, MESSAGES = 1500, BURST = 30, ROOM = 32, TICK = 50, MANY = CLK_MOST_TAKEN };

static const char TREE[] = "voice :: Sender(0); web :: Sender(1); mail :: Sender(2); news :: Sender(3);"
                           "calls :: Queue(100); p, q :: Queue(32); fresh :: FrontDropQueue(8); shares :: DRRSched(3000, 1500, 1500);"
                           "first :: PrioSched; rate :: Shaper(2, 16); link :: ToDevice(eth0);"
                           "voice -> calls -> first; web -> p -> shares; mail -> q -> [1] shares; news -> fresh -> [2] shares;"
                           "shares -> [1] first; first -> rate -> link;";

struct message {
    uint32_t sender, number, length;
    unsigned char bytes[];
};

/* What a sender's thread uses, and then what this thread counts of its messages. */
struct sender {
    pthread_t thread;
    clk_inlet inlet;
    uint32_t sender;
    uint64_t emitted, refused, evicted;
    uint32_t next; /* no message below this number is emitted any more */
};

static clk_live live;
static struct waiter *waiter;
static struct sender senders[SENDERS];

static void need(bool holds, const char *what) {
    if (!holds) {
        fprintf(stderr, "senders: %s\n", what);
        exit(1);
    }
}

static void pause_for(long microseconds) {
    nanosleep(&(struct timespec){.tv_nsec = microseconds * 1000}, NULL);
}

static uint64_t microseconds(void) {
    struct timespec now;
    need(clock_gettime(CLOCK_MONOTONIC, &now) == 0, "no clock");
    return (uint64_t)now.tv_sec * 1000000 + (uint64_t)now.tv_nsec / 1000;
}

static void *send_messages(void *of) {
    struct sender *me = of;
    for (uint32_t number = 0; number < MESSAGES; number++) {
        uint32_t length = me->sender == 0 ? 200 : 100 + number * 7 % 1400, given;
        struct message *it = malloc(sizeof *it + length);
        need(it != NULL, "no memory");
        *it = (struct message){me->sender, number, length};
        memset(it->bytes, (int)me->sender, length);
        clk_status status;
        while ((status = clk_inlet_offer(&me->inlet, length, (uint64_t)(uintptr_t)it, &given)) == CLK_FULL)
            pause_for(100);
        need(status == CLK_OK && given == number, clk_status_text(status));
        waiter_notify(waiter); /* the message is the other thread's now */
        if (number % BURST == BURST - 1)
            pause_for(2000);
    }
    clk_inlet_close(&me->inlet);
    waiter_notify(waiter);
    return NULL;
}

/* Frees the message of a token, and returns its sender. */
static struct sender *get_back(clk_packet packet, uint64_t token) {
    struct message *it = (struct message *)(uintptr_t)token;
    need(it->sender == packet.sender && it->number == packet.number && it->length == packet.length, "a token of another packet");
    free(it);
    return &senders[packet.sender];
}

/* Takes what the senders have put, and returns how many packets that was. */
static size_t take(void) {
    clk_taken taken[MANY];
    size_t given;
    need(clk_live_take_in(&live, 16, taken, MANY, &given) <= CLK_NONE, "a take failed");
    for (size_t i = 0; i < given; i++) {
        if (taken[i].outcome == CLK_REFUSED)
            get_back(taken[i].packet, taken[i].token)->refused++;
        if (taken[i].outcome == CLK_EVICTED)
            get_back(taken[i].evicted, taken[i].evicted_token)->evicted++;
    }
    return given;
}

/* Sends what the tree lets through at this tick. A link of your own would write the message's bytes here. */
static void transmit(uint64_t tick) {
    clk_emitted emitted[MANY];
    size_t given;
    need(clk_live_pull_many(&live, 0, tick, emitted, MANY, &given) <= CLK_NONE, "a pull failed");
    for (size_t i = 0; i < given; i++) {
        struct sender *from = get_back(emitted[i].packet, emitted[i].token);
        need(emitted[i].packet.number >= from->next, "a message was overtaken by a later one of its sender");
        from->next = emitted[i].packet.number + 1;
        from->emitted++;
    }
}

/* Sleeps to the next tick while packets wait in the tree, and otherwise until a sender has something. */
static void rest(void) {
    if (clk_live_drained(&live) != CLK_OK) {
        pause_for(TICK);
        return;
    }
    waiter_prepare(waiter);
    if (take() > 0 || clk_live_ended(&live) == CLK_OK)
        waiter_cancel(waiter);
    else
        waiter_wait(waiter, -1);
}

/* Whether each message of a sender came back, once. What came through and was lost differs from run to run, and goes to standard error. */
static void account_for(size_t place) {
    clk_account told;
    const struct sender *it = &senders[place];
    need(clk_live_account_at(&live, place, &told) == CLK_OK && told.sender == it->sender, "no account");
    need(told.emitted.packets == it->emitted && told.refused.packets == it->refused && told.evicted.packets == it->evicted, "other sums");
    need(it->emitted + it->refused + it->evicted == MESSAGES, "a message is missing");
    printf("sender %u: offered %d = emitted + refused + evicted, in order\n", it->sender, MESSAGES);
    fprintf(stderr, "sender %u: emitted %" PRIu64 ", refused %" PRIu64 ", evicted %" PRIu64 "\n", it->sender, it->emitted, it->refused,
            it->evicted);
}

int main(void) {
    clk_fault fault;
    need(clk_live_open(TREE, strlen(TREE), ROOM, &live, &fault) == CLK_OK, "no router");
    need((waiter = waiter_open()) != NULL, "no waiter");
    for (uint32_t i = 0; i < SENDERS; i++) {
        senders[i].sender = i;
        need(clk_live_inlet(&live, i, &senders[i].inlet) == CLK_OK, "no inlet");
        need(pthread_create(&senders[i].thread, NULL, send_messages, &senders[i]) == 0, "no thread");
    }
    uint64_t start = microseconds();
    while (clk_live_ended(&live) != CLK_OK || clk_live_drained(&live) != CLK_OK) {
        size_t taken = take();
        transmit((microseconds() - start) / TICK);
        if (taken == 0)
            rest();
    }
    for (size_t i = 0; i < SENDERS; i++) {
        need(pthread_join(senders[i].thread, NULL) == 0, "no join");
        account_for(i);
    }
    waiter_close(waiter);
    clk_live_close(&live);
    return 0;
}
