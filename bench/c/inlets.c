/* Measures the inlets of live routers, alone and below producers on threads. This is C and no part of what is proved.
 *
 *     inlets PACKETS            prints a line for each measurement on one thread: its name, nanoseconds a packet
 *     inlets --threads PACKETS  prints a line for each number of producers: millions of packets a second
 *
 * On one thread nothing else uses the inlets, and offers are timed apart from takes and pulls. Each producer on a thread of its own has as many
 * of the 8 senders as the others, and pauses for 200 turns of a loop after CLK_FULL. One thread takes from all inlets and pulls a DRRSched over
 * 8 queues. The tokens that were sent and those that came back are added up. */
#include "clickpull.h"
#include "measure.h"

#include <pthread.h>
#include <stdlib.h>
#include <string.h>

enum { INLET_ROOM = 1024, MOST_SENDERS = 64, BATCH = 64, PAUSE = 200, MOST_PRODUCERS = 4, QUEUES = 8 };

struct bench {
    clk_live live;
    clk_inlet inlets[MOST_SENDERS];
    uint32_t senders, each; /* every `each`-th sender is busy */
};

static void need(int holds, const char *what) {
    if (!holds) {
        fprintf(stderr, "inlets: %s\n", what);
        exit(1);
    }
}

/* A live router over so many queues below one scheduler, with a sender for each. */
static void open_live(struct bench *bench, uint32_t senders, const char *scheduler) {
    char text[8192];
    size_t length = 0;
    for (uint32_t i = 0; i < senders; i++)
        length += (size_t)snprintf(text + length, sizeof text - length, "s%u :: Sender(%u); q%u :: Queue(2048); s%u -> q%u -> [%u] top; ", i, i, i, i, i, i);
    snprintf(text + length, sizeof text - length, "top :: %s; link :: ToDevice(eth0); top -> link;", scheduler);
    clk_fault fault;
    need(clk_live_open(text, strlen(text), INLET_ROOM, &bench->live, &fault) == CLK_OK, "no router");
    bench->senders = senders;
    for (uint32_t i = 0; i < senders; i++)
        need(clk_live_inlet(&bench->live, i, &bench->inlets[i]) == CLK_OK, "no inlet");
}

static void close_live(struct bench *bench) {
    for (uint32_t i = 0; i < bench->senders; i++)
        clk_inlet_close(&bench->inlets[i]);
    clk_live_close(&bench->live);
}

/* Takes a batch of what waits, as much of each sender as of any other, and pulls all that is inside. Returns how many packets came out, and
 * adds up their tokens. */
static uint64_t pass_on(struct bench *bench, uint64_t *sum) {
    clk_taken taken[BATCH];
    clk_emitted emitted[BATCH];
    clk_live *live = &bench->live;
    size_t given;
    uint64_t came = 0;
    clk_live_take_in(live, BATCH / bench->senders, taken, BATCH, &given);
    size_t left = given;
    while (left > 0) {
        /* A DRRSched may have to be pulled again. */
        clk_live_pull_many(live, 0, 0, emitted, left, &given);
        for (size_t i = 0; i < given; i++)
            *sum += emitted[i].token;
        came += given;
        left -= given;
    }
    return came;
}

/* One thread. */

/* Offers as many packets as the inlet has room for, one by one. */
static void offer_each(clk_inlet *inlet) {
    for (uint64_t i = 0; i < INLET_ROOM; i++)
        need(clk_inlet_offer(inlet, 100, i, NULL) == CLK_OK, "an offer isn't accepted");
}

/* Offers as many in batches. */
static void offer_batches(clk_inlet *inlet) {
    clk_item items[BATCH];
    size_t done;
    for (size_t i = 0; i < BATCH; i++)
        items[i] = (clk_item){.token = i, .length = 100};
    for (uint64_t i = 0; i < INLET_ROOM; i += BATCH)
        need(clk_inlet_offer_many(inlet, items, BATCH, &done) == CLK_OK, "a batch isn't accepted");
}

/* Nanoseconds a packet of offers alone. What was offered is taken and pulled between them. */
static double offers_alone(struct bench *bench, void (*offer)(clk_inlet *inlet), uint64_t packets) {
    double least = 1e300;
    uint64_t sum = 0;
    for (int round = 0; round < ROUNDS; round++) {
        double taken = 0;
        for (uint64_t done = 0; done < packets; done += INLET_ROOM) {
            double start = seconds();
            offer(&bench->inlets[0]);
            taken += seconds() - start;
            for (uint64_t came = 0; came < INLET_ROOM;)
                came += pass_on(bench, &sum);
        }
        double it = taken * 1e9 / (double)((packets + INLET_ROOM - 1) / INLET_ROOM * INLET_ROOM);
        least = it < least ? it : least;
    }
    return least;
}

/* Each busy sender offers a packet, and then all are taken and pulled. */
static void round_by_round(void *at, uint64_t packets) {
    struct bench *bench = at;
    uint64_t sum = 0;
    while (packets > 0) {
        uint64_t some = 0;
        for (uint32_t i = 0; i < bench->senders && some < packets; i += bench->each, some++)
            need(clk_inlet_offer(&bench->inlets[i], 100, i, NULL) == CLK_OK, "an offer isn't accepted");
        for (uint64_t came = 0; came < some;)
            came += pass_on(bench, &sum);
        packets -= some;
    }
}

static void alone(uint64_t packets) {
    struct bench bench = {.live = CLK_NO_LIVE, .each = 1};
    open_live(&bench, 1, "PrioSched");
    printf("an offer, one by one\t%.1f\n", offers_alone(&bench, offer_each, packets));
    printf("an offer, in batches of 64\t%.1f\n", offers_alone(&bench, offer_batches, packets));
    close_live(&bench);
    static const uint32_t SENDERS[][2] = {{1, 1}, {8, 1}, {8, 4}, {64, 1}, {64, 32}};
    for (size_t i = 0; i < sizeof SENDERS / sizeof *SENDERS; i++) {
        bench.each = SENDERS[i][1];
        open_live(&bench, SENDERS[i][0], "DRRSched(1500)");
        printf("an offer, a take and a pull, DRRSched over %u, %s\t%.1f\n", SENDERS[i][0], SENDERS[i][1] == 1 ? "busy" : "sparse",
               nanoseconds(round_by_round, &bench, packets));
        close_live(&bench);
    }
}

/* Threads. */

struct producer {
    clk_inlet *inlets;
    uint32_t senders;
    uint64_t packets, sum;
};

static void pause_for(unsigned turns) {
    for (volatile unsigned i = 0; i < turns; i++)
        ;
}

static void *produce(void *at) {
    struct producer *me = at;
    for (uint64_t i = 0; i < me->packets; i++) {
        clk_inlet *inlet = &me->inlets[i % me->senders];
        while (clk_inlet_offer(inlet, (uint32_t)(1 + i % 1500), i, NULL) == CLK_FULL)
            pause_for(PAUSE);
        me->sum += i;
    }
    for (uint32_t i = 0; i < me->senders; i++)
        clk_inlet_close(&me->inlets[i]);
    return NULL;
}

static double with_producers(uint32_t producers, uint64_t packets) {
    struct bench bench = {.live = CLK_NO_LIVE, .each = 1};
    struct producer all[MOST_PRODUCERS];
    pthread_t threads[MOST_PRODUCERS];
    uint64_t sum = 0, sent = 0, came = 0;
    open_live(&bench, QUEUES, "DRRSched(1500)");
    double start = seconds();
    for (uint32_t i = 0; i < producers; i++) {
        uint32_t senders = QUEUES / producers;
        all[i] = (struct producer){&bench.inlets[i * senders], senders, packets / producers, 0};
        need(pthread_create(&threads[i], NULL, produce, &all[i]) == 0, "no thread");
    }
    while (clk_live_ended(&bench.live) != CLK_OK || clk_live_drained(&bench.live) != CLK_OK)
        came += pass_on(&bench, &sum);
    double taken = seconds() - start;
    for (uint32_t i = 0; i < producers; i++) {
        pthread_join(threads[i], NULL);
        sent += all[i].sum;
    }
    need(came == packets / producers * producers && sum == sent, "packets are lost");
    clk_live_close(&bench.live);
    return (double)came / taken / 1e6;
}

static void on_threads(uint64_t packets) {
    for (uint32_t producers = 1; producers <= MOST_PRODUCERS; producers *= 2) {
        double most = 0;
        for (int round = 0; round < ROUNDS; round++) {
            double it = with_producers(producers, packets);
            most = it > most ? it : most;
        }
        printf("%u\t%.1f\n", producers, most);
    }
}

int main(int argc, char **argv) {
    if (argc == 3 && strcmp(argv[1], "--threads") == 0)
        on_threads(strtoull(argv[2], NULL, 10));
    else if (argc == 2)
        alone(strtoull(argv[1], NULL, 10));
    else
        need(0, "wants PACKETS, or --threads PACKETS");
    return 0;
}
