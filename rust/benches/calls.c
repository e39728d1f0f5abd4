/* What calls take in C, in nanoseconds a packet, beside calls.rs. This is C and no part of what is proved.
 *
 *     cc -std=gnu11 -O3 calls.c $(pkg-config --cflags --libs clickpull) && ./a.out */
#include <clickpull.h>
#include <stdio.h>
#include <stdlib.h>
#include <string.h>
#include <time.h>

static const char TREE[] = "a :: Sender(0); b :: Sender(1); p, q :: Queue(64); s :: DRRSched(1500); d :: ToDevice(link);"
                           "a -> p -> s -> d; b -> q -> [1] s;";

enum { BURST = 32, BURSTS = 50000, RUNS = 7 };

static clk_router router;
static clk_live live;
static clk_inlet inlets[2];
static clk_offer_of offers[BURST];

/* Keeps the compiler from leaving a call out. */
static volatile uint64_t sink;

static void one_by_one(void) {
    clk_offered offered;
    clk_packet packet;
    for (uint32_t i = 0; i < BURST; i++)
        if (clk_offer(&router, i % 2, 1000, &offered) == CLK_OK)
            sink = offered.outcome;
    /* A pull may emit nothing while a DRRSched waits for its next turn. */
    for (int left = BURST; left > 0;)
        if (clk_pull(&router, 0, 0, &packet) == CLK_OK) {
            sink = packet.number;
            left--;
        }
}

static void in_bursts(void) {
    clk_offered offered[BURST];
    clk_packet packets[BURST];
    size_t done, given;
    if (clk_offer_many(&router, offers, BURST, offered, &done) != CLK_OK || done != BURST)
        abort();
    for (size_t left = BURST; left > 0; left -= given) {
        clk_pull_many(&router, 0, 0, packets, left, &given);
        sink = packets[0].number;
    }
}

static void on_live(void) {
    clk_taken taken[BURST];
    clk_emitted emitted;
    size_t given;
    for (int i = 0; i < BURST; i++)
        sink = clk_inlet_offer(&inlets[i % 2], 1000, (uint64_t)i, NULL);
    clk_live_take_in(&live, BURST, taken, BURST, &given);
    sink = given;
    for (int left = BURST; left > 0;)
        if (clk_live_pull(&live, 0, 0, &emitted) == CLK_OK) {
            sink = emitted.token;
            left--;
        }
}

static void on_live_in_bursts(void) {
    clk_taken taken[BURST];
    clk_emitted emitted[BURST];
    clk_item items[BURST / 2];
    size_t given;
    for (int i = 0; i < BURST / 2; i++)
        items[i] = (clk_item){(uint64_t)i, 1000};
    for (int i = 0; i < 2; i++)
        sink = clk_inlet_offer_many(&inlets[i], items, BURST / 2, &given);
    clk_live_take_in(&live, BURST, taken, BURST, &given);
    sink = given;
    for (size_t left = BURST; left > 0; left -= given) {
        clk_live_pull_many(&live, 0, 0, emitted, left, &given);
        sink = emitted[0].token;
    }
}

static double now(void) {
    struct timespec it;
    clock_gettime(CLOCK_MONOTONIC, &it);
    return (double)it.tv_sec * 1e9 + (double)it.tv_nsec;
}

/* Measures bursts, and tells the least time of a packet. */
static void measure(const char *name, void (*burst)(void)) {
    double least = 1e18;
    for (int run = 0; run < RUNS; run++) {
        double start = now();
        for (int i = 0; i < BURSTS; i++)
            burst();
        double took = (now() - start) / ((double)BURSTS * BURST);
        least = took < least ? took : least;
    }
    printf("%s\t%.1f\n", name, least);
}

int main(void) {
    if (clk_open(TREE, strlen(TREE), &router, NULL) != CLK_OK || clk_live_open(TREE, strlen(TREE), 64, &live, NULL) != CLK_OK)
        return 1;
    for (uint32_t i = 0; i < 2; i++)
        if (clk_live_inlet(&live, i, &inlets[i]) != CLK_OK)
            return 1;
    for (uint32_t i = 0; i < BURST; i++)
        offers[i] = (clk_offer_of){i % 2, 1000};
    puts("calls of C\tnanoseconds a packet");
    measure("router, one by one", one_by_one);
    measure("router, in bursts", in_bursts);
    measure("live router, one by one", on_live);
    measure("live router, in bursts", on_live_in_bursts);
    for (int i = 0; i < 2; i++)
        clk_inlet_close(&inlets[i]);
    clk_live_close(&live);
    clk_close(&router);
}
