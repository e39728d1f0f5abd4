/* The scheduler of this library: inlets below a live router. The token of a frame is the address of its mbuf. This is C over DPDK, and no
 * part of what is proved.
 *
 * An inlet takes frames from one core. So each receive queue has inlets of its own: the frames of queue Q that the table sorts to sender S
 * come from Sender(Q * N + S) of the tree, where N is one more than the greatest sender of the table. */
#include "scheduler.h"
#include "clickpull.h"
#include "recording.h"
#include "texts.h"
#include "told.h"

#include <rte_malloc.h>

/* How many frames one round takes from one inlet. */
enum { EACH = 32 };

/* The inlet of a sender at a receive queue, and frames on their way to it. Only the core of the queue uses it. */
struct lane {
    clk_inlet inlet;
    uint64_t sent, overrun;
    unsigned count;
    clk_item items[BURST];
} __rte_cache_aligned;

struct scheduler {
    clk_live live;
    struct recording recording;
    struct lane *lanes; /* those of queue 0 by sender, then those of queue 1, and so on */
    uint32_t senders, count;
    uint64_t inside; /* how many frames are inside at most */
    int is_held;     /* whether frames stay in their inlets while their queue is full */
};

static struct rte_mbuf *frame_of(uint64_t token) {
    return (struct rte_mbuf *)(uintptr_t)token;
}

static void open_router(struct scheduler *scheduler, const struct options *options) {
    size_t length;
    clk_fault fault;
    const char *text = read_tree(options->tree, &length);
    if (clk_live_open(text, length, options->room, &scheduler->live, &fault) != CLK_OK)
        stop_at_fault(options->tree, &fault);
    if (clk_live_devices(&scheduler->live) != 1)
        stop("%s: it has %zu devices, and this program serves one link", options->tree, clk_live_devices(&scheduler->live));
}

/* Hands out the inlet of each sender of the tree. One that no receive queue feeds ends at once. */
static void open_lanes(struct scheduler *scheduler) {
    clk_account it;
    clk_inlet inlet;
    for (size_t place = 0; clk_live_account_at(&scheduler->live, place, &it) == CLK_OK; place++) {
        clk_status status = clk_live_inlet(&scheduler->live, it.sender, &inlet);
        if (status != CLK_OK)
            stop("the inlet of sender %u: %s", it.sender, clk_status_text(status));
        if (it.sender < scheduler->count)
            scheduler->lanes[it.sender].inlet = inlet;
        else
            clk_inlet_close(&inlet);
    }
}

/* Stops if the tree lacks a sender that the table has. */
static void match_senders(const struct scheduler *scheduler, const struct options *options, const struct table *table) {
    for (uint32_t queue = 0; queue < options->queues; queue++)
        for (size_t i = 0; i < table->length; i++) {
            uint32_t sender = table->lines[i].sender, number = queue * scheduler->senders + sender;
            if (!scheduler->lanes[number].inlet.at)
                stop("%s: sender %u of receive queue %u is Sender(%u), which isn't in %s", options->table, sender, queue, number,
                     options->tree);
        }
}

/* How many frames inlets and queues hold at most, and schedulers, each of which holds one for each of its inputs. */
static uint64_t room_of(const struct scheduler *scheduler, uint32_t room) {
    enum { MOST_ELEMENTS = 256 };
    clk_queue it;
    uint64_t inside = (uint64_t)clk_live_senders(&scheduler->live) * room + MOST_ELEMENTS;
    for (uint16_t number = 0; clk_live_queue_at(&scheduler->live, number, &it) == CLK_OK; number++)
        inside += it.capacity;
    return inside;
}

struct scheduler *open_scheduler(const struct options *options, const struct table *table) {
    struct scheduler *scheduler = rte_zmalloc("scheduler", sizeof *scheduler, 0);
    if (!scheduler)
        stop("no memory");
    scheduler->senders = senders_of(table);
    if (scheduler->senders == 0)
        stop("%s: it has no lines", options->table);
    scheduler->count = scheduler->senders * options->queues;
    scheduler->lanes = rte_zmalloc("lanes", scheduler->count * sizeof *scheduler->lanes, 0);
    if (!scheduler->lanes)
        stop("no memory for %u inlets", scheduler->count);
    scheduler->is_held = options->is_held;
    open_router(scheduler, options);
    open_lanes(scheduler);
    match_senders(scheduler, options, table);
    scheduler->inside = room_of(scheduler, options->room);
    open_recording(&scheduler->recording, options->record);
    return scheduler;
}

uint64_t most_inside(const struct scheduler *scheduler) {
    return scheduler->inside;
}

/* Frees the frames of items that an inlet didn't accept. */
static void drop(const clk_item *items, size_t count) {
    for (size_t i = 0; i < count; i++)
        rte_pktmbuf_free(frame_of(items[i].token));
}

/* Offers what is on its way to an inlet. Returns 0 if the inlet accepts no more frames. */
static int offer(struct lane *lane) {
    size_t done;
    clk_status status = clk_inlet_offer_many(&lane->inlet, lane->items, lane->count, &done);
    if (status != CLK_OK && status != CLK_FULL && status != CLK_AT_END)
        stop("an offer: %s", clk_status_text(status));
    drop(lane->items + done, lane->count - done);
    lane->sent += lane->count;
    lane->overrun += lane->count - done;
    lane->count = 0;
    return status != CLK_AT_END;
}

int hand_over(struct scheduler *scheduler, uint16_t queue, struct rte_mbuf **frames, const uint16_t *senders, unsigned count) {
    struct lane *lanes = scheduler->lanes + (size_t)queue * scheduler->senders;
    uint16_t found[BURST];
    unsigned lanes_found = 0;
    int is_open = 1;
    for (unsigned i = 0; i < count; i++) {
        struct lane *lane = &lanes[senders[i]];
        uint32_t length = RTE_MIN(frames[i]->pkt_len, (uint32_t)UINT16_MAX);
        if (lane->count == 0)
            found[lanes_found++] = senders[i];
        lane->items[lane->count++] = (clk_item){.token = (uint64_t)(uintptr_t)frames[i], .length = length};
    }
    for (unsigned i = 0; i < lanes_found; i++)
        is_open &= offer(&lanes[found[i]]);
    return is_open;
}

void end_queue(struct scheduler *scheduler, uint16_t queue) {
    struct lane *lanes = scheduler->lanes + (size_t)queue * scheduler->senders;
    for (uint32_t i = 0; i < scheduler->senders; i++)
        clk_inlet_close(&lanes[i].inlet);
}

/* Puts the frames that were refused or evicted in `lost`, and returns how many. */
static unsigned losses_of(const clk_taken *taken, size_t count, struct rte_mbuf **lost) {
    unsigned losses = 0;
    for (size_t i = 0; i < count; i++)
        if (taken[i].outcome == CLK_REFUSED)
            lost[losses++] = frame_of(taken[i].token);
        else if (taken[i].outcome == CLK_EVICTED)
            lost[losses++] = frame_of(taken[i].evicted_token);
    return losses;
}

/* Has mbufs read to the cache of this core while their frames wait in queues: the core that received a frame wrote its mbuf, and a driver is
 * going to read and free it here. */
static void prefetch(const clk_taken *taken, size_t count) {
    for (size_t i = 0; i < count; i++) {
        rte_mbuf_prefetch_part1(frame_of(taken[i].token));
        rte_mbuf_prefetch_part2(frame_of(taken[i].token));
    }
}

/* Takes a round from the inlets, and frees what is lost. Returns how many frames it took. */
static size_t take(struct scheduler *scheduler) {
    clk_taken taken[CLK_MOST_TAKEN];
    struct rte_mbuf *lost[CLK_MOST_TAKEN];
    size_t given;
    clk_status status = scheduler->is_held
                            ? clk_live_take_what_fits(&scheduler->live, EACH, taken, CLK_MOST_TAKEN, &given)
                            : clk_live_take_in(&scheduler->live, EACH, taken, CLK_MOST_TAKEN, &given);
    if (status != CLK_OK && status != CLK_NONE)
        stop("a take: %s", clk_status_text(status));
    if (given == 0)
        return 0;
    prefetch(taken, given);
    record_taken(&scheduler->recording, taken, given);
    unsigned losses = losses_of(taken, given, lost);
    if (losses > 0)
        rte_pktmbuf_free_bulk(lost, losses);
    return given;
}

/* If frames are held, the queues are filled. Else one round has to do, since the inlets may be filled as fast as they are emptied. */
void queue_frames(struct scheduler *scheduler) {
    while (take(scheduler) == CLK_MOST_TAKEN && scheduler->is_held)
        ;
}

unsigned pull_frames(struct scheduler *scheduler, uint64_t moment, struct rte_mbuf **frames, unsigned count) {
    clk_emitted emitted[BURST];
    uint64_t due;
    size_t given;
    if (clk_live_due(&scheduler->live, 0, &due) != CLK_OK || due > moment)
        return 0;
    clk_status status = clk_live_pull_many(&scheduler->live, 0, moment, emitted, count, &given);
    if (status != CLK_OK && status != CLK_NONE)
        stop("a pull at tick %" PRIu64 ": %s", moment, clk_status_text(status));
    record_pulls(&scheduler->recording, moment, given, count);
    for (size_t i = 0; i < given; i++)
        frames[i] = frame_of(emitted[i].token);
    return (unsigned)given;
}

int has_ended(struct scheduler *scheduler) {
    return clk_live_ended(&scheduler->live) == CLK_OK;
}

int is_drained(struct scheduler *scheduler) {
    return clk_live_drained(&scheduler->live) == CLK_OK;
}

/* Adds what became of the packets of a sender of the tree. */
static void add(struct account *account, const struct lane *lane, const clk_account *it) {
    account->sent += lane->sent;
    account->overrun += lane->overrun;
    account->accepted += it->accepted.packets;
    account->refused += it->refused.packets;
    account->evicted += it->evicted.packets;
    account->emitted += it->emitted.packets;
    account->left += it->accepted.packets - it->evicted.packets - it->emitted.packets;
    account->bytes += it->emitted.bytes;
}

void read_accounts(const struct scheduler *scheduler, struct account *accounts) {
    clk_account it;
    for (uint32_t i = 0; i < scheduler->senders; i++)
        accounts[i] = (struct account){0};
    for (size_t place = 0; clk_live_account_at(&scheduler->live, place, &it) == CLK_OK; place++)
        if (it.sender < scheduler->count)
            add(&accounts[it.sender % scheduler->senders], &scheduler->lanes[it.sender], &it);
}

/* Frees the frames that are inside. */
static void reclaim(struct scheduler *scheduler) {
    uint64_t tokens[BURST];
    size_t given;
    clk_status status;
    do {
        status = clk_live_reclaim(&scheduler->live, tokens, BURST, &given);
        for (size_t i = 0; i < given; i++)
            rte_pktmbuf_free(frame_of(tokens[i]));
    } while (status == CLK_NONE);
    if (status != CLK_OK)
        stop("a reclaim: %s", clk_status_text(status));
}

void close_scheduler(struct scheduler *scheduler) {
    close_recording(&scheduler->recording, is_drained(scheduler));
    reclaim(scheduler);
    clk_live_close(&scheduler->live);
    rte_free(scheduler->lanes);
    rte_free(scheduler);
}
