/* Two senders on threads of their own, and a router whose run is recorded: recorded TREE > RECORD
 *
 * `clickpull script TREE RECORD` repeats the run. This is C and no part of what is proved. */
#define _DEFAULT_SOURCE 1 /* for usleep */
#include <clickpull.h>
#include <pthread.h>
#include <stdio.h>
#include <unistd.h>

/* How many packets a round takes, and how many pulls it makes. */
enum { TAKEN = 64, PULLS = 32 };

static void *produce(void *inlet) {
    for (uint64_t token = 0; token < 1000; token++)
        while (clk_inlet_offer(inlet, 1500, token, NULL) == CLK_FULL)
            usleep(50);
    clk_inlet_close(inlet);
    return NULL;
}

static void serve(clk_live *live, FILE *file) {
    char lines[(TAKEN + PULLS) * CLK_MOST_LINE];
    clk_record record = {lines, sizeof lines, 0, 0};
    clk_taken taken[TAKEN];
    clk_emitted emitted[PULLS];
    size_t given;
    for (uint64_t now = 0; clk_live_ended(live) != CLK_OK || clk_live_drained(live) != CLK_OK; now++) {
        clk_live_take_what_fits(live, 16, taken, TAKEN, &given);
        clk_record_taken(&record, taken, given);
        if (clk_live_drained(live) == CLK_OK) {
            usleep(50); /* nothing is inside: a pull would only be one more line */
            continue;
        }
        clk_live_pull_many(live, 0, now, emitted, PULLS, &given);
        clk_record_pulls(&record, 0, now, given < PULLS ? given + 1 : given);
        fwrite(record.text, 1, record.used, file);
        record.used = 0;
    }
    clk_record_drain(&record, 0);
    fwrite(record.text, 1, record.used, file);
}

int main(int count, char **words) {
    char tree[4096];
    clk_live live;
    clk_inlet inlets[2];
    pthread_t threads[2];
    FILE *file = count == 2 ? fopen(words[1], "r") : NULL;
    if (!file || clk_live_open(tree, fread(tree, 1, sizeof tree, file), 256, &live, NULL) != CLK_OK)
        return 1;
    fclose(file);
    for (uint32_t i = 0; i < 2; i++)
        if (clk_live_inlet(&live, i, &inlets[i]) != CLK_OK || pthread_create(&threads[i], NULL, produce, &inlets[i]) != 0)
            return 1;
    serve(&live, stdout);
    for (int i = 0; i < 2; i++)
        pthread_join(threads[i], NULL);
    clk_live_close(&live);
}
