/* Shapes a capture: reads its frames, sorts them to the senders of a tree, offers each at its time, pulls each device at the rate of its
 * link, and writes a capture with the times at which they left. This is C over libpcap, and no part of what is proved.
 *
 *     shape TREE TABLE RATE IN OUT
 *
 * Each device of the tree is a link of its own. RATE is that of each link, in bits a second, as 8000000, 8000k or 8M. A tick of the tree is
 * a microsecond, the first frame's being tick 0. A link takes a frame as soon as it is through with the one before. A frame leaves when its
 * last byte has gone, and that is its time in OUT, which has the frames of all links in the order in which they left. A frame of more than
 * 65,535 bytes counts as one of 65,535. Frames that fit no line of the table, are no IP, or have length 0, are left out and counted.
 *
 * The report has a line for each sender: frames and bytes that came, were lost in its queue, and left, its share of the bytes that came and
 * that left, in percent, and the longest that one of its frames was on its way, in milliseconds. It goes to standard output, or to standard
 * error where the capture goes to standard output. Exit status 1 says that something is wrong, or that IN is cut. */
#include "captures.h"
#include "clickpull.h"
#include "ends.h"
#include "kept.h"
#include "links.h"
#include "rate.h"
#include "report.h"
#include "table.h"
#include "texts.h"
#include "told.h"

#include <stdio.h>

const char told_by[] = "shape";

struct shaper {
    clk_router router;
    struct table table;
    struct captures captures;
    struct links links;
    uint64_t left_out; /* how many frames */
};

static void open_router(struct shaper *shaper, const char *path) {
    size_t length;
    clk_fault fault;
    const char *text = read_tree(path, &length);
    if (clk_open(text, length, &shaper->router, &fault) != CLK_OK)
        stop_at_fault(path, &fault);
}

/* Stops if the table has a sender that the tree lacks. */
static void match_senders(const struct shaper *shaper, const char *tree, const char *table) {
    static char is_in_tree[NUMBERS];
    clk_account it;
    for (size_t place = 0; clk_account_at(&shaper->router, place, &it) == CLK_OK; place++)
        is_in_tree[it.sender] = 1;
    for (size_t i = 0; i < shaper->table.length; i++)
        if (!is_in_tree[shaper->table.lines[i].sender])
            stop("%s: sender %u isn't in %s", table, shaper->table.lines[i].sender, tree);
}

/* The number of a frame's sender; -1 if the frame is left out. */
static int sender_of_frame(const struct shaper *shaper, const struct pcap_pkthdr *header, const u_char *bytes) {
    struct ends ends;
    if (header->len == 0 || !read_ends(shaper->captures.link, bytes, header->caplen, &ends))
        return -1;
    return sender_of(&shaper->table, &ends);
}

static void arrive(struct shaper *shaper, const struct pcap_pkthdr *header, const u_char *bytes, uint64_t came) {
    int sender = sender_of_frame(shaper, header, bytes);
    if (sender < 0) {
        shaper->left_out++;
        return;
    }
    work_until(&shaper->links, came);
    struct frame *frame = copy_frame(header, bytes, came);
    if (!frame)
        stop("no memory");
    offer(&shaper->links, (uint16_t)sender, frame);
}

static void run(struct shaper *shaper) {
    struct pcap_pkthdr *header;
    const u_char *bytes;
    uint64_t came;
    while (read_frame(&shaper->captures, &header, &bytes, &came))
        arrive(shaper, header, bytes, came);
    finish_links(&shaper->links);
}

/* Writes the report to standard output, unless the capture went there. */
static void tell(const struct shaper *shaper) {
    int is_taken = shaper->captures.is_standard;
    FILE *file = is_taken ? stderr : stdout;
    report(file, &shaper->router, shaper->links.slowest, shaper->left_out);
    stop_unless_stored(file, is_taken ? "standard error" : "standard output");
}

int main(int argc, char **argv) {
    static struct shaper shaper;
    if (argc != 6)
        stop("usage: shape TREE TABLE RATE IN OUT");
    uint64_t rate;
    if (!read_rate(argv[3], &rate))
        stop("'%s' isn't a rate: bits a second from 1 on, as 8000000, 8000k or 8M", argv[3]);
    open_table(argv[2], &shaper.table);
    open_router(&shaper, argv[1]);
    match_senders(&shaper, argv[1], argv[2]);
    open_in(&shaper.captures, argv[4]);
    open_out(&shaper.captures, argv[5], argv + 1, 2);
    open_links(&shaper.links, &shaper.router, &shaper.captures, rate);
    run(&shaper);
    close_out(&shaper.captures);
    tell(&shaper);
    clk_close(&shaper.router);
    free_table(&shaper.table);
    return close_in(&shaper.captures);
}
