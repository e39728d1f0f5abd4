/* Tests of live routers with many packets on threads: at_length [PACKETS [SEED]]
 *
 * Of each packet its number, length and token are compared. Each is out once, and those of a sender keep their order. It stands outside
 * what is proved. */
#define _POSIX_C_SOURCE 200809L
#include "clickpull.h"

#include <pthread.h>
#include <sched.h>
#include <stdatomic.h>
#include <stdbool.h>
#include <stdio.h>
#include <stdlib.h>
#include <string.h>

enum { MOST = 8, MANY = CLK_MOST_TAKEN, OWNERS = 4, LEG = 100 };

/* Eight senders in five queues of both kinds, below three schedulers. */
static const char TREE[] = "s0 :: Sender(0); s1 :: Sender(1); s2 :: Sender(2); s3 :: Sender(3); s4 :: Sender(4); s5 :: Sender(5);"
                           "s6 :: Sender(6); s7 :: Sender(7); p, q :: Queue(40); r :: FrontDropQueue(40); t :: FrontDropQueue(1);"
                           "u :: Queue(1); x :: DRRSched(1500, 500); y :: StrideSched(3, 2, 1); z :: RoundRobinSched; d :: ToDevice(link);"
                           "s0 -> p -> x; s1 -> q -> [1] x; s2 -> r -> y; s3 -> t -> [1] y; s4 -> u -> [2] y; s5 -> p; s6 -> r; s7 -> t;"
                           "x -> z; y -> [1] z; z -> d;";

struct producer {
    pthread_t thread;
    clk_inlet inlet;
    uint32_t sender, packets;
    uint32_t chance;
};

/* What became of each packet of a sender. The next ones are the least numbers that may follow. */
struct tally {
    unsigned char *is_out;
    uint32_t packets, gone, next_taken, next_emitted, next_evicted;
};

static clk_live live;
static struct producer producers[MOST];
static struct tally tallies[MOST];
static unsigned long all_packets;

static void need(bool holds, const char *what) {
    if (!holds) {
        fprintf(stderr, "at_length: %s\n", what);
        exit(1);
    }
}

/* The next of some numbers by chance, by Marsaglia's xorshift, below a bound. */
static uint32_t chance(uint32_t *state, uint32_t bound) {
    *state ^= *state << 13;
    *state ^= *state >> 17;
    *state ^= *state << 5;
    return *state % bound;
}

static uint32_t length_of(uint32_t sender, uint32_t number) {
    uint32_t mixed = (number + 1) * 2654435761u ^ sender << 20;
    return number % 100 == 99 ? 65535 - mixed % 3 : 1 + (mixed >> 16) % 1500;
}

static uint64_t token_of(uint32_t sender, uint32_t number) {
    return ((uint64_t)number * UINT64_C(0x9e3779b97f4a7c15)) ^ (uint64_t)sender << 56;
}

/* Offers one packet until there is room. If it is sure to fit, the first offer finds room. */
static void offer(struct producer *me, uint32_t number, bool is_sure) {
    uint32_t given = UINT32_MAX, length = length_of(me->sender, number);
    clk_status status;
    while ((status = clk_inlet_offer(&me->inlet, length, token_of(me->sender, number), &given)) == CLK_FULL && !is_sure)
        sched_yield();
    need(status == CLK_OK && given == number, "an offer failed");
}

/* Offers so many packets one by one. What is told to fit fits, whatever the other thread does. */
static void offer_one_by_one(struct producer *me, uint32_t number, uint32_t count) {
    size_t room = 0;
    need(clk_inlet_room(&me->inlet, &room) == CLK_OK, "no room is told");
    for (uint32_t i = 0; i < count; i++)
        offer(me, number + i, i < room);
}

/* Offers a batch of packets until all have found room. */
static void offer_batch(struct producer *me, uint32_t number, uint32_t count) {
    clk_item items[2 * MANY];
    for (uint32_t i = 0; i < count; i++)
        items[i] = (clk_item){token_of(me->sender, number + i), length_of(me->sender, number + i)};
    for (size_t from = 0; from < count;) {
        size_t done;
        clk_status status = clk_inlet_offer_many(&me->inlet, items + from, count - from, &done);
        need(status == CLK_OK ? done == count - from : status == CLK_FULL && done < count - from, "a batch failed");
        from += done;
        if (status == CLK_FULL)
            sched_yield();
    }
}

/* Sends all packets of a producer, some alone and some in batches, and closes its inlet. */
static void *produces(void *of) {
    struct producer *me = of;
    for (uint32_t number = 0; number < me->packets;) {
        uint32_t count = 1 + chance(&me->chance, 2 * MANY);
        if (count > me->packets - number)
            count = me->packets - number;
        if (count % 3 == 0)
            offer_one_by_one(me, number, count);
        else
            offer_batch(me, number, count);
        number += count;
    }
    clk_inlet_close(&me->inlet);
    return NULL;
}

/* A packet is out of the router, with its token. */
static void goes_out(clk_packet packet, uint64_t token) {
    struct tally *tally = &tallies[packet.sender % MOST];
    need(packet.sender < MOST && packet.number < tally->packets, "a packet that was not sent");
    need(packet.length == length_of(packet.sender, packet.number), "a length was changed");
    need(token == token_of(packet.sender, packet.number), "a token was changed");
    need(!tally->is_out[packet.number], "a packet is out twice");
    tally->is_out[packet.number] = 1;
    tally->gone++;
}

/* Whether a number is not below the next one, which it sets. */
static bool is_in_order(uint32_t *next, uint32_t number) {
    bool is = number >= *next;
    *next = number + 1;
    return is;
}

static void note_taken(const clk_taken *it) {
    struct tally *tally = &tallies[it->packet.sender % MOST];
    need(it->packet.number == tally->next_taken++, "a packet is taken out of order");
    need(it->token == token_of(it->packet.sender, it->packet.number), "a token was changed");
    if (it->outcome == CLK_REFUSED)
        goes_out(it->packet, it->token);
    if (it->outcome == CLK_EVICTED) {
        goes_out(it->evicted, it->evicted_token);
        need(is_in_order(&tallies[it->evicted.sender].next_evicted, it->evicted.number), "a packet is evicted out of order");
    }
}

/* Takes and pulls once, as many as chance says. Returns how many packets it took and pulled. */
static size_t serve(uint64_t moment, uint32_t *state) {
    clk_taken taken[MANY];
    clk_emitted emitted[MANY];
    size_t given, pulled;
    uint32_t how = chance(state, 4), sender = chance(state, MOST);
    size_t count = 1 + chance(state, MANY), each = 1 + chance(state, 20);
    clk_status status = how == 0   ? clk_live_take(&live, sender, taken, count, &given)
                        : how == 1 ? clk_live_take_what_fits(&live, each, taken, count, &given)
                                   : clk_live_take_in(&live, each, taken, count, &given);
    need(status == (given > 0 ? CLK_OK : CLK_NONE) && given <= count, "a take failed");
    for (size_t i = 0; i < given; i++) {
        note_taken(&taken[i]);
        need(how != 0 || taken[i].packet.sender == sender, "a packet of another sender is taken");
        need(how != 1 || taken[i].outcome == CLK_ACCEPTED, "a packet that fits is lost");
    }
    need(clk_live_pull_many(&live, 0, moment, emitted, chance(state, MANY), &pulled) <= CLK_NONE, "a pull failed");
    for (size_t i = 0; i < pulled; i++) {
        goes_out(emitted[i].packet, emitted[i].token);
        need(is_in_order(&tallies[emitted[i].packet.sender].next_emitted, emitted[i].packet.number), "a packet is emitted out of order");
    }
    return given + pulled;
}

static bool is_done(void) {
    return clk_live_ended(&live) == CLK_OK && clk_live_drained(&live) == CLK_OK;
}

/* Serves until all inlets are closed and no packet is left. */
static void serve_all(uint32_t state) {
    for (uint64_t moment = 0; !is_done(); moment++) {
        if (serve(moment, &state) == 0)
            sched_yield();
    }
}

/* Opens the router, with so many packets to come of each sender. */
static void begin(uint32_t room, const uint32_t packets[MOST]) {
    need(clk_live_open(TREE, strlen(TREE), room, &live, NULL) == CLK_OK, "no router");
    for (uint32_t i = 0; i < MOST; i++) {
        producers[i] = (struct producer){.sender = i, .packets = packets[i], .chance = 1 + i + packets[i]};
        tallies[i] = (struct tally){.is_out = calloc(packets[i] + 1, 1), .packets = packets[i]};
        need(tallies[i].is_out != NULL && clk_live_inlet(&live, i, &producers[i].inlet) == CLK_OK, "no inlet");
    }
}

static void start(pthread_t *thread, void *(*work)(void *), void *with) {
    need(pthread_create(thread, NULL, work, with) == 0, "no thread");
}

static void join(pthread_t thread) {
    need(pthread_join(thread, NULL) == 0, "no join");
}

/* Compares the sums, and frees all. */
static void end(void) {
    for (size_t i = 0; i < MOST; i++) {
        const struct tally *it = &tallies[i];
        clk_account account;
        need(it->gone == it->packets && it->next_taken == it->packets, "a packet is missing");
        need(clk_live_account_at(&live, i, &account) == CLK_OK && account.sender == i, "no account");
        need(account.accepted.packets + account.refused.packets == it->packets, "other packets were offered");
        need(account.accepted.packets == account.evicted.packets + account.emitted.packets, "other packets came out");
        free(it->is_out);
        all_packets += it->packets;
    }
    clk_live_close(&live);
}

/* So many producers send on threads of their own. The inlets of the other senders are closed before. */
static void producers_send(uint32_t room, uint32_t count, const uint32_t packets[MOST], uint32_t seed) {
    begin(room, packets);
    for (uint32_t i = count; i < MOST; i++)
        clk_inlet_close(&producers[i].inlet);
    for (uint32_t i = 0; i < count; i++)
        start(&producers[i].thread, produces, &producers[i]);
    serve_all(seed);
    for (uint32_t i = 0; i < count; i++)
        join(producers[i].thread);
    end();
}

/* So many producers send equally many packets. */
static void producers_share(uint32_t count, uint32_t packets, uint32_t seed) {
    uint32_t shares[MOST] = {0};
    for (uint32_t i = 0; i < count; i++)
        shares[i] = packets / count;
    producers_send(1 + seed % 300, count, shares, seed);
}

/* Of so many producers each sends half as many packets as the one before. The last sends none, and closes its inlet while others send. */
static void producers_end_early(uint32_t count, uint32_t packets, uint32_t seed) {
    uint32_t shares[MOST] = {0};
    for (uint32_t i = 0; i + 1 < count; i++)
        shares[i] = packets / 2 >> i;
    producers_send(1 + seed % 70, count, shares, seed);
}

/* Whose turn it is to use the first producer's inlet: threads 0 and 1 hand it to and fro by this sequentially consistent number. */
static _Atomic uint32_t leg;

static void *sends_every_other_leg(void *of) {
    uint32_t mine = *(const uint32_t *)of;
    struct producer *shared = &producers[0];
    for (;;) {
        uint32_t now;
        while ((now = leg) % 2 != mine)
            sched_yield();
        uint32_t from = now * LEG, to = from + LEG < shared->packets ? from + LEG : shared->packets;
        for (uint32_t number = from; number < to; number++)
            offer(shared, number, false);
        if (from < shared->packets && to == shared->packets)
            clk_inlet_close(&shared->inlet);
        leg = now + 1;
        if (to == shared->packets)
            return NULL;
    }
}

/* Sends the first half of the packets. */
static void *sends_first_half(void *of) {
    struct producer *me = of;
    for (uint32_t number = 0; number < me->packets / 2; number++)
        offer(me, number, false);
    return NULL;
}

/* Waits for the thread that sends the first half, and then sends the second with the same inlet. */
static void *sends_second_half(void *of) {
    struct producer *me = of;
    join(me->thread);
    for (uint32_t number = me->packets / 2; number < me->packets; number++)
        offer(me, number, false);
    clk_inlet_close(&me->inlet);
    return NULL;
}

/* One inlet goes from thread to thread all the time, by an atomic number; another one goes once, by a join. */
static void inlets_move(uint32_t packets, uint32_t seed) {
    uint32_t numbers[2] = {0, 1}, shares[MOST] = {packets / 2 / LEG * LEG + LEG, packets / 2};
    pthread_t threads[3];
    begin(3, shares);
    for (uint32_t i = 2; i < MOST; i++)
        clk_inlet_close(&producers[i].inlet);
    leg = 0;
    start(&threads[0], sends_every_other_leg, &numbers[0]);
    start(&threads[1], sends_every_other_leg, &numbers[1]);
    start(&producers[1].thread, sends_first_half, &producers[1]);
    start(&threads[2], sends_second_half, &producers[1]);
    serve_all(seed);
    for (size_t i = 0; i < 3; i++)
        join(threads[i]);
    end();
}

static pthread_mutex_t lock = PTHREAD_MUTEX_INITIALIZER;
static uint64_t moments;

/* Serves beside other owners, under the lock. */
static void *owns(void *of) {
    uint32_t state = *(const uint32_t *)of;
    for (bool is_over = false; !is_over;) {
        need(pthread_mutex_lock(&lock) == 0, "no lock");
        is_over = is_done();
        size_t done = is_over ? 0 : serve(moments++, &state);
        need(pthread_mutex_unlock(&lock) == 0, "no unlock");
        if (done == 0)
            sched_yield();
    }
    return NULL;
}

/* Four threads own the router together, under a lock, while all producers send. */
static void owners_share_a_lock(uint32_t packets, uint32_t seed) {
    uint32_t shares[MOST], seeds[OWNERS];
    pthread_t owners[OWNERS];
    for (uint32_t i = 0; i < MOST; i++)
        shares[i] = packets / MOST;
    begin(50, shares);
    moments = 0;
    for (uint32_t i = 0; i < OWNERS; i++) {
        seeds[i] = seed + i;
        start(&owners[i], owns, &seeds[i]);
    }
    for (uint32_t i = 0; i < MOST; i++)
        start(&producers[i].thread, produces, &producers[i]);
    for (uint32_t i = 0; i < MOST; i++)
        join(producers[i].thread);
    for (uint32_t i = 0; i < OWNERS; i++)
        join(owners[i]);
    end();
}

int main(int argc, char **argv) {
    uint32_t packets = argc > 1 ? (uint32_t)strtoul(argv[1], NULL, 10) : 400000;
    uint32_t seed = argc > 2 ? (uint32_t)strtoul(argv[2], NULL, 10) : 7;
    need(packets >= 1000 && seed > 0, "usage: at_length [PACKETS [SEED]], PACKETS being 1000 at least");
    for (uint32_t count = 1; count <= MOST; count *= 2) {
        producers_share(count, packets / 8, seed + count);
        producers_end_early(count, packets / 8, seed + 10 * count);
    }
    inlets_move(packets / 8, seed);
    owners_share_a_lock(packets / 8, seed);
    printf("%lu packets\n", all_packets);
    return 0;
}
