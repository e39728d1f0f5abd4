/* Tests that no wake-up is lost: sleeping [SECONDS]
 *
 * A consumer waits, as examples/threads/waiter.h says, whenever it finds nothing, and an inlet has room for one packet. So a wake-up that
 * is lost leaves all threads waiting, and the test fails once a wait takes LONGEST. One and two producers offer. While the inlet is full
 * they yield, or wait by a waiter of their own that the consumer notifies. The rounds are repeated for so many seconds, and each runs once
 * at least. It is linked with either waiter, and stands outside what is proved. */
#define _POSIX_C_SOURCE 200809L
#include "clickpull.h"
#include "waiter.h"

#include <pthread.h>
#include <sched.h>
#include <stdatomic.h>
#include <stdio.h>
#include <stdlib.h>
#include <string.h>
#include <time.h>
#include <unistd.h>

/* LONGEST is in milliseconds. */
enum { PRODUCERS = 2, PACKETS = 3000, LONGEST = 60000, MANY = 4 };

static const char TREE[] = "a :: Sender(0); b :: Sender(1); p, q :: Queue(1); s :: RoundRobinSched; d :: ToDevice(link);"
                           "a -> p -> s; b -> q -> [1] s; s -> d;";

struct producer {
    pthread_t thread;
    clk_inlet inlet;
    uint32_t sender;
    struct waiter *waiter; /* what it waits by while its inlet is full; NULL: it yields */
    uint32_t next;         /* the number of the next packet that the consumer gets of it */
};

static clk_live live;
static struct waiter *waiter;
static struct producer producers[PRODUCERS];

/* How often the consumer and the producers have waited. */
static unsigned long waits;
static atomic_ulong waits_of_producers;

static void need(bool holds, const char *what) {
    if (!holds) {
        fprintf(stderr, "sleeping: %s\n", what);
        exit(1);
    }
}

/* Lets other threads run now and then between a look and waiter_prepare, where a careless order loses wake-ups. */
static void linger(uint64_t time) {
    if (time % 3 == 0)
        sched_yield();
}

static clk_status offer(struct producer *me, uint32_t number) {
    clk_status status = clk_inlet_offer(&me->inlet, 1 + number % 1500, (uint64_t)number << 8 | me->sender, NULL);
    if (status == CLK_OK)
        waiter_notify(waiter);
    need(status == CLK_OK || status == CLK_FULL, clk_status_text(status));
    return status;
}

/* Offers a packet, and waits for room as long as there is none. */
static void offer_and_wait(struct producer *me, uint32_t number) {
    while (offer(me, number) != CLK_OK) {
        if (!me->waiter) {
            sched_yield();
            continue;
        }
        linger(number);
        waiter_prepare(me->waiter);
        if (offer(me, number) == CLK_OK) {
            waiter_cancel(me->waiter);
            return;
        }
        need(waiter_wait(me->waiter, LONGEST), "a producer was not woken");
        waits_of_producers++;
    }
}

static void *produces(void *of) {
    struct producer *me = of;
    for (uint32_t number = 0; number < PACKETS; number++)
        offer_and_wait(me, number);
    clk_inlet_close(&me->inlet);
    waiter_notify(waiter);
    return NULL;
}

/* Takes what is there and fits, and wakes the producers. Returns how many packets that was. */
static size_t take(void) {
    clk_taken taken[MANY];
    size_t given;
    need(clk_live_take_what_fits(&live, 1, taken, MANY, &given) <= CLK_NONE, "a take failed");
    for (size_t i = 0; i < PRODUCERS; i++) {
        if (given > 0 && producers[i].waiter)
            waiter_notify(producers[i].waiter);
    }
    return given;
}

/* Pulls what was taken. Each packet is the next of its sender, with its token. */
static void pull(uint64_t moment) {
    clk_emitted it;
    while (clk_live_pull(&live, 0, moment, &it) == CLK_OK) {
        uint32_t number = it.packet.number;
        need(it.packet.sender < PRODUCERS && number == producers[it.packet.sender].next++, "a packet is out of order");
        need(it.token == ((uint64_t)number << 8 | it.packet.sender) && it.packet.length == 1 + number % 1500, "a packet was changed");
    }
}

static void consume(void) {
    for (uint64_t moment = 0; clk_live_ended(&live) != CLK_OK; moment++) {
        if (take() == 0) {
            linger(moment);
            waiter_prepare(waiter);
            if (take() > 0 || clk_live_ended(&live) == CLK_OK) {
                waiter_cancel(waiter);
            } else {
                need(waiter_wait(waiter, LONGEST), "the consumer was not woken");
                waits++;
            }
        }
        pull(moment);
    }
    need(clk_live_drained(&live) == CLK_OK, "packets are left");
}

/* A round with so many producers. Returns how many packets were sent. */
static unsigned long round_of(uint32_t count, bool producers_wait) {
    need(clk_live_open(TREE, strlen(TREE), 1, &live, NULL) == CLK_OK && (waiter = waiter_open()) != NULL, "no router");
    for (uint32_t i = 0; i < PRODUCERS; i++) {
        producers[i] = (struct producer){.sender = i};
        need(clk_live_inlet(&live, i, &producers[i].inlet) == CLK_OK, "no inlet");
        need(!producers_wait || (producers[i].waiter = waiter_open()) != NULL, "no waiter");
        if (i >= count)
            clk_inlet_close(&producers[i].inlet);
    }
    for (uint32_t i = 0; i < count; i++)
        need(pthread_create(&producers[i].thread, NULL, produces, &producers[i]) == 0, "no thread");
    consume();
    for (uint32_t i = 0; i < PRODUCERS; i++) {
        need(i >= count || pthread_join(producers[i].thread, NULL) == 0, "no join");
        need(producers[i].next == (i < count ? PACKETS : 0), "a packet is missing");
        if (producers[i].waiter)
            waiter_close(producers[i].waiter);
    }
    waiter_close(waiter);
    clk_live_close(&live);
    return (unsigned long)count * PACKETS;
}

static time_t now(void) {
    struct timespec it;
    need(clock_gettime(CLOCK_MONOTONIC, &it) == 0, "no clock");
    return it.tv_sec;
}

int main(int argc, char **argv) {
    long seconds = argc > 1 ? strtol(argv[1], NULL, 10) : 1;
    unsigned long packets = 0;
    time_t end = now() + seconds;
    /* Ends the program if a wait has no end at all. */
    alarm((unsigned)seconds + 4 * LONGEST / 1000);
    do {
        for (uint32_t count = 1; count <= PRODUCERS; count++)
            packets += round_of(count, false) + round_of(count, true);
    } while (now() < end);
    need(waits > 0 && waits_of_producers > 0, "nobody ever waited");
    fprintf(stderr, "sleeping: %lu packets, waited %lu and %lu times\n", packets, waits, (unsigned long)waits_of_producers);
    return 0;
}
