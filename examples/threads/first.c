/* Two senders on threads of their own, and a router that loses nothing. This is C and no part of what is proved. */
#define _DEFAULT_SOURCE 1 /* for usleep */
#include <clickpull.h>
#include <pthread.h>
#include <stdio.h>
#include <string.h>
#include <unistd.h>

static const char TREE[] = "a :: Sender(0); b :: Sender(1); p, q :: Queue(8); s :: DRRSched(1500); d :: ToDevice(eth0);"
                           "a -> p -> s -> d; b -> q -> [1] s;";

static void *produce(void *inlet) {
    for (uint64_t token = 0; token < 1000; token++)
        while (clk_inlet_offer(inlet, 1500, token, NULL) == CLK_FULL)
            usleep(50);
    clk_inlet_close(inlet);
    return NULL;
}

static void serve(clk_live *live, uint64_t sums[2]) {
    clk_taken taken[64];
    clk_emitted it;
    size_t given;
    for (uint64_t now = 0; clk_live_ended(live) != CLK_OK || clk_live_drained(live) != CLK_OK; now++) {
        if (clk_live_take_what_fits(live, 16, taken, 64, &given) == CLK_NONE)
            usleep(50);
        while (clk_live_pull(live, 0, now, &it) == CLK_OK)
            sums[it.packet.sender] += it.token;
    }
}

int main(void) {
    clk_live live;
    clk_inlet inlets[2];
    pthread_t threads[2];
    uint64_t sums[2] = {0, 0};
    if (clk_live_open(TREE, strlen(TREE), 256, &live, NULL) != CLK_OK)
        return 1;
    for (uint32_t i = 0; i < 2; i++)
        if (clk_live_inlet(&live, i, &inlets[i]) != CLK_OK || pthread_create(&threads[i], NULL, produce, &inlets[i]) != 0)
            return 1;
    serve(&live, sums);
    for (int i = 0; i < 2; i++)
        pthread_join(threads[i], NULL);
    printf("sums of tokens: %u and %u\n", (unsigned)sums[0], (unsigned)sums[1]);
    clk_live_close(&live);
}
