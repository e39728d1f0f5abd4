/* Measures the library: nanoseconds a packet, of its offer and its pull together. This is C and no part of what is proved.
 *
 *     ours PACKETS        prints a line for each tree: its name, one by one, in bursts of 32, and these with a pointer of the caller's
 *     ours --memory PACKETS   passes so many through a router of each tree, and prints the peak memory before and after
 *     ours --one-by-one TREE PACKETS, ours --bursts TREE PACKETS   passes so many through a router of one tree, by its number from 0
 *
 * Busy queues hold 32 packets, and stay so: a packet that was pulled is offered again by the same sender. */
#include "clickpull.h"
#include "measure.h"
#include "trees.h"

#include <stdlib.h>
#include <string.h>
#include <sys/resource.h>

/* Pointers of the caller's, of the packets of one sender, in order. */
struct own {
    void *items[ROOM];
    unsigned first, end;
};

struct bench {
    clk_router router;
    struct own own[MOST_QUEUES];
    uint64_t came;
};

static void stop(const char *what) {
    fprintf(stderr, "ours: %s\n", what);
    exit(1);
}

static void offer(clk_router *router, uint32_t sender, uint32_t length) {
    clk_offered it;
    if (clk_offer(router, sender, length, &it) != CLK_OK || it.outcome != CLK_ACCEPTED)
        stop("an offer isn't accepted");
}

static void one_by_one(void *at, uint64_t packets) {
    struct bench *bench = at;
    clk_packet packet;
    while (packets > 0) {
        // A DRRSched may have to be asked again.
        if (clk_pull(&bench->router, 0, 0, &packet) != CLK_OK)
            continue;
        offer(&bench->router, packet.sender, packet.length);
        packets--;
    }
}

/* Pulls a burst, and makes the offers of the same packets. */
static size_t pull_burst(struct bench *bench, clk_packet *packets, clk_offer_of *offers) {
    size_t given;
    clk_pull_many(&bench->router, 0, 0, packets, BURST, &given);
    for (size_t i = 0; i < given; i++)
        offers[i] = (clk_offer_of){packets[i].sender, packets[i].length};
    return given;
}

static void in_bursts(void *at, uint64_t packets) {
    struct bench *bench = at;
    clk_packet pulled[BURST];
    clk_offer_of offers[BURST];
    clk_offered offered[BURST];
    for (uint64_t done = 0; done < packets;) {
        size_t given = pull_burst(bench, pulled, offers), many;
        if (clk_offer_many(&bench->router, offers, given, offered, &many) != CLK_OK)
            stop("offers aren't made");
        done += given;
    }
}

static void put_own(struct bench *bench, uint16_t sender, void *item) {
    struct own *own = &bench->own[sender];
    own->items[own->end++ % ROOM] = item;
}

static void *take_own(struct bench *bench, uint16_t sender) {
    struct own *own = &bench->own[sender];
    return own->items[own->first++ % ROOM];
}

static void one_by_one_with_own(void *at, uint64_t packets) {
    struct bench *bench = at;
    clk_packet packet;
    while (packets > 0) {
        if (clk_pull(&bench->router, 0, 0, &packet) != CLK_OK)
            continue;
        void *item = take_own(bench, packet.sender);
        bench->came += (uintptr_t)item;
        offer(&bench->router, packet.sender, packet.length);
        put_own(bench, packet.sender, item);
        packets--;
    }
}

static void in_bursts_with_own(void *at, uint64_t packets) {
    struct bench *bench = at;
    clk_packet pulled[BURST];
    clk_offer_of offers[BURST];
    clk_offered offered[BURST];
    void *items[BURST];
    for (uint64_t done = 0; done < packets;) {
        size_t given = pull_burst(bench, pulled, offers), many;
        for (size_t i = 0; i < given; i++)
            items[i] = take_own(bench, pulled[i].sender);
        if (clk_offer_many(&bench->router, offers, given, offered, &many) != CLK_OK)
            stop("offers aren't made");
        for (size_t i = 0; i < given; i++)
            if (offered[i].outcome == CLK_ACCEPTED)
                put_own(bench, offered[i].packet.sender, items[i]);
        done += given;
    }
}

static int is_busy(const struct tree *tree, unsigned queue) {
    return (queue + 1) % tree->each == 0;
}

static void begin(struct bench *bench, const struct tree *tree) {
    static char text[16384];
    memset(bench, 0, sizeof *bench);
    size_t length = write_tree(tree, text, sizeof text);
    if (clk_open(text, length, &bench->router, NULL) != CLK_OK)
        stop("a tree has a fault");
    for (unsigned queue = 0; queue < tree->queues; queue++)
        for (unsigned i = 0; i < FILL && is_busy(tree, queue); i++) {
            // Lengths as on a link: short ones and full ones.
            offer(&bench->router, queue, i % 2 == 0 ? 64 : 1500);
            put_own(bench, (uint16_t)queue, &bench->own[queue]);
        }
}

static void measure(const struct tree *tree, uint64_t packets) {
    static struct bench bench;
    begin(&bench, tree);
    double one = nanoseconds(one_by_one, &bench, packets), many = nanoseconds(in_bursts, &bench, packets);
    clk_close(&bench.router);
    begin(&bench, tree);
    double own = nanoseconds(one_by_one_with_own, &bench, packets), own_many = nanoseconds(in_bursts_with_own, &bench, packets);
    clk_close(&bench.router);
    printf("%s\t%.1f\t%.1f\t%.1f\t%.1f\n", tree->name, one, many, own, own_many);
    fflush(stdout);
}

/* The peak memory of this process so far, in KiB. */
static long peak(void) {
    struct rusage usage;
    getrusage(RUSAGE_SELF, &usage);
    return usage.ru_maxrss;
}

static void memory(const struct tree *tree, uint64_t packets) {
    static struct bench bench;
    begin(&bench, tree);
    in_bursts(&bench, 1000000);
    long before = peak();
    in_bursts(&bench, packets);
    printf("%s\t%ld\t%ld\n", tree->name, before, peak());
    fflush(stdout);
    clk_close(&bench.router);
}

/* Passes packets through a router of one tree, for what counts instructions. */
static void pass(const char *way, unsigned long tree, uint64_t packets) {
    static struct bench bench;
    if (tree >= TREE_COUNT)
        stop("there is no such tree");
    begin(&bench, &TREES[tree]);
    if (strcmp(way, "--bursts") == 0)
        in_bursts(&bench, packets);
    else
        one_by_one(&bench, packets);
    clk_close(&bench.router);
}

int main(int argc, char **argv) {
    if (argc == 4) {
        pass(argv[1], strtoul(argv[2], NULL, 10), strtoull(argv[3], NULL, 10));
        return 0;
    }
    int of_memory = argc == 3 && strcmp(argv[1], "--memory") == 0;
    if (argc != 2 && !of_memory)
        stop("usage: ours [--memory] PACKETS, or ours --one-by-one|--bursts TREE PACKETS");
    uint64_t packets = strtoull(argv[argc - 1], NULL, 10);
    for (int i = 0; i < TREE_COUNT; i++) {
        // Memory is that of the greatest tree of all.
        if (!of_memory)
            measure(&TREES[i], packets);
        else if (TREES[i].scheduler == NULL && TREES[i].each == 1)
            memory(&TREES[i], packets);
    }
    return 0;
}
