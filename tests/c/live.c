/* Tests of live routers, on one thread and with senders on threads of their own. They stand outside what is proved. */
#include "check.h"

#include <pthread.h>
#include <sched.h>
#include <stdlib.h>
#include <string.h>

/* Two senders with a queue each, below a scheduler that takes turns. The second queue evicts. */
static const char *const TWO = "a :: Sender(3); b :: Sender(5); p :: Queue(2); q :: FrontDropQueue(2); s :: RoundRobinSched; "
                               "d :: ToDevice(link); a -> p -> [0] s; b -> q -> [1] s; s -> d;";

static clk_live live_of(const char *text, uint32_t room) {
    clk_live live;
    clk_fault fault = {0, 0};
    CHECK(clk_live_open(text, strlen(text), room, &live, &fault) == CLK_OK && live.at != NULL);
    return live;
}

static clk_inlet inlet_of(clk_live *live, uint32_t sender) {
    clk_inlet inlet;
    CHECK(clk_live_inlet(live, sender, &inlet) == CLK_OK && inlet.at != NULL);
    return inlet;
}

static void offers(clk_inlet *inlet, uint32_t length, uint64_t token, uint32_t number) {
    uint32_t its = 99;
    CHECK(clk_inlet_offer(inlet, length, token, &its) == CLK_OK && its == number);
}

static void packets_go_through(void) {
    clk_live live = live_of(TWO, 4);
    clk_inlet a = inlet_of(&live, 3), b = inlet_of(&live, 5);
    CHECK(clk_live_senders(&live) == 2 && clk_live_queues(&live) == 2 && clk_live_devices(&live) == 1);
    for (uint32_t n = 0; n < 3; n++) {
        offers(&a, 100 + n, 30 + n, n);
        offers(&b, 200 + n, 50 + n, n);
    }
    clk_taken taken[4], untouched;
    memset(taken, 0xee, sizeof taken);
    memset(&untouched, 0xee, sizeof untouched);
    size_t given = 99;
    /* The third packet finds its Queue full. */
    CHECK(clk_live_take(&live, 3, taken, 4, &given) == CLK_OK && given == 3);
    for (unsigned n = 0; n < 3; n++) {
        CHECK(is_packet(taken[n].packet, 3, n, 100 + n) && taken[n].token == 30 + n);
        CHECK(taken[n].outcome == (n < 2 ? CLK_ACCEPTED : CLK_REFUSED));
        CHECK(is_packet(taken[n].evicted, 0, 0, 0) && taken[n].evicted_token == 0);
    }
    CHECK(memcmp(&taken[3], &untouched, sizeof untouched) == 0);
    CHECK(clk_live_take(&live, 3, taken, 4, &given) == CLK_NONE && given == 0);
    /* The third packet evicts the first from its FrontDropQueue. */
    CHECK(clk_live_take(&live, 5, taken, 4, &given) == CLK_OK && given == 3);
    CHECK(is_packet(taken[2].packet, 5, 2, 202) && taken[2].token == 52 && taken[2].outcome == CLK_EVICTED);
    CHECK(is_packet(taken[2].evicted, 5, 0, 200) && taken[2].evicted_token == 50);
    uint64_t number = 99;
    CHECK(clk_live_left(&live, 0, &number) == CLK_OK && number == 4);
    clk_queue queue;
    CHECK(clk_live_queue_at(&live, 1, &queue) == CLK_OK && queue.capacity == 2 && queue.held == 2 && queue.front_drop == 1);
    clk_emitted one;
    CHECK(clk_live_pull(&live, 0, 7, &one) == CLK_OK && is_packet(one.packet, 3, 0, 100) && one.token == 30);
    CHECK(clk_live_moment(&live, 0, &number) == CLK_OK && number == 7);
    number = 99;
    CHECK(clk_live_due(&live, 0, &number) == CLK_OK && number == 7);
    clk_emitted many[4];
    CHECK(clk_live_pull_many(&live, 0, 8, many, 2, &given) == CLK_OK && given == 2);
    CHECK(is_packet(many[0].packet, 5, 1, 201) && many[0].token == 51);
    CHECK(is_packet(many[1].packet, 3, 1, 101) && many[1].token == 31);
    CHECK(clk_live_drained(&live) == CLK_NONE);
    CHECK(clk_live_pull_many(&live, 0, 8, many, 4, &given) == CLK_OK && given == 1 && many[0].token == 52);
    CHECK(clk_live_pull_many(&live, 0, 8, many, 4, &given) == CLK_NONE && given == 0);
    CHECK(clk_live_pull(&live, 0, 9, &one) == CLK_NONE && clk_live_due(&live, 0, &number) == CLK_NONE && number == 7);
    CHECK(clk_live_drained(&live) == CLK_OK && clk_live_ended(&live) == CLK_NONE);
    clk_account account;
    CHECK(clk_live_account_at(&live, 0, &account) == CLK_OK && account.sender == 3);
    CHECK(account.accepted.packets == 2 && account.refused.packets == 1 && account.emitted.bytes == 201);
    CHECK(clk_live_account_at(&live, 1, &account) == CLK_OK && account.evicted.packets == 1 && account.emitted.packets == 2);
    /* What waits when an inlet is closed is taken still. */
    offers(&a, 1, 33, 3);
    CHECK(clk_inlet_close(&a) == CLK_OK && clk_inlet_close(&b) == CLK_OK);
    CHECK(clk_live_ended(&live) == CLK_NONE);
    CHECK(clk_live_take_in(&live, 1, taken, 4, &given) == CLK_OK && given == 1 && taken[0].token == 33);
    CHECK(clk_live_take_in(&live, 1, taken, 4, &given) == CLK_NONE && given == 0);
    CHECK(clk_live_ended(&live) == CLK_OK && clk_live_drained(&live) == CLK_NONE);
    clk_departed departed[2];
    CHECK(clk_live_drain(&live, 0, departed, 2, 10, &given) == CLK_OK && given == 1);
    CHECK(departed[0].moment == 10 && is_packet(departed[0].packet, 3, 3, 1) && departed[0].token == 33);
    CHECK(clk_live_drained(&live) == CLK_OK);
    clk_live_close(&live);
    CHECK(live.at == NULL);
}

static void rounds_give_each_sender_its_turn(void) {
    clk_live live = live_of(TWO, 100);
    clk_inlet a = inlet_of(&live, 3), b = inlet_of(&live, 5);
    for (uint32_t n = 0; n < 80; n++) {
        offers(&a, 1, n, n);
        offers(&b, 1, 100 + n, n);
    }
    clk_taken taken[100];
    size_t given = 99;
    CHECK(clk_live_take_in(&live, 2, taken, 3, &given) == CLK_OK && given == 3);
    CHECK(taken[0].token == 0 && taken[1].token == 1 && taken[2].token == 100);
    /* The round ended early at the second sender, so that the first is next. */
    CHECK(clk_live_take_in(&live, 1, taken, 3, &given) == CLK_OK && given == 2);
    CHECK(taken[0].token == 2 && taken[1].token == 101);
    CHECK(clk_live_take(&live, 3, taken, 100, &given) == CLK_OK && given == CLK_MOST_TAKEN);
    CHECK(taken[0].token == 3 && taken[63].token == 66);
    CHECK(clk_live_take_in(&live, 100, taken, 100, &given) == CLK_OK && given == CLK_MOST_TAKEN);
    CHECK(clk_live_take_in(&live, 0, taken, 100, &given) == CLK_NONE && given == 0);
    CHECK(clk_live_take_in(&live, 1, NULL, 0, &given) == CLK_OK && given == 0);
    clk_inlet_close(&a);
    clk_inlet_close(&b);
    clk_live_close(&live);
}

static void full_queues_hold_back_their_senders(void) {
    clk_live live = live_of(TWO, 4);
    clk_inlet a = inlet_of(&live, 3), b = inlet_of(&live, 5);
    for (uint32_t n = 0; n < 4; n++) {
        offers(&a, 1, n, n);
        offers(&b, 1, 10 + n, n);
    }
    CHECK(clk_inlet_offer(&a, 1, 4, NULL) == CLK_FULL);
    clk_taken taken[8];
    size_t given = 99;
    CHECK(clk_live_take_what_fits(&live, 4, taken, 8, &given) == CLK_OK && given == 4);
    for (size_t i = 0; i < 4; i++) {
        CHECK(taken[i].outcome == CLK_ACCEPTED && taken[i].token == (i < 2 ? i : 8 + i));
    }
    CHECK(clk_live_take_what_fits(&live, 4, taken, 8, &given) == CLK_NONE && given == 0);
    clk_emitted one;
    CHECK(clk_live_pull(&live, 0, 1, &one) == CLK_OK && one.token == 0);
    CHECK(clk_live_take_what_fits(&live, 4, taken, 8, &given) == CLK_OK && given == 1 && taken[0].token == 2);
    clk_inlet_close(&a);
    clk_inlet_close(&b);
    clk_live_close(&live);
}

static void drains_go_on_in_pieces(void) {
    clk_live live = live_of("a :: Sender(0); q :: Queue(10); h :: Shaper(1, 2); d :: ToDevice(link); a -> q -> h -> d;", 16);
    clk_inlet a = inlet_of(&live, 0);
    for (uint32_t n = 0; n < 5; n++) {
        offers(&a, 1, n, n);
    }
    clk_taken taken[8];
    size_t given = 99;
    CHECK(clk_live_take(&live, 0, taken, 8, &given) == CLK_OK && given == 5);
    clk_departed departed[2];
    uint64_t next = 0;
    clk_status status;
    while ((status = clk_live_drain(&live, 0, departed, 2, 3, &given)) == CLK_NONE || given > 0) {
        for (size_t i = 0; i < given; i++) {
            CHECK(departed[i].token == next && departed[i].packet.number == next && departed[i].moment > next);
            next++;
        }
    }
    CHECK(status == CLK_OK && next == 5 && clk_live_drained(&live) == CLK_OK);
    offers(&a, 1, 9, 5);
    CHECK(clk_live_take(&live, 0, taken, 8, &given) == CLK_OK);
    clk_emitted one;
    CHECK(clk_live_pull(&live, 0, CLK_END_OF_MOMENTS - 1, &one) == CLK_OK && one.token == 9);
    offers(&a, 1, 10, 6);
    CHECK(clk_live_take(&live, 0, taken, 8, &given) == CLK_OK);
    CHECK(clk_live_drain(&live, 0, departed, 2, 3, &given) == CLK_AT_END && given == 0);
    clk_inlet_close(&a);
    clk_live_close(&live);
}

static void tokens_are_reclaimed_in_pieces(void) {
    clk_live live = live_of(TWO, 4);
    clk_inlet a = inlet_of(&live, 3), b = inlet_of(&live, 5);
    for (uint32_t n = 0; n < 2; n++) {
        offers(&a, 1, n, n);
        offers(&b, 1, 10 + n, n);
    }
    clk_taken taken[8];
    size_t given = 99;
    CHECK(clk_live_take_in(&live, 4, taken, 8, &given) == CLK_OK && given == 4);
    offers(&a, 1, 2, 2);
    uint64_t tokens[3] = {77, 77, 77};
    CHECK(clk_live_reclaim(&live, tokens, 3, &given) == CLK_NONE && given == 3);
    CHECK(tokens[0] == 0 && tokens[1] == 1 && tokens[2] == 10);
    CHECK(clk_live_reclaim(&live, tokens, 3, &given) == CLK_OK && given == 1);
    CHECK(tokens[0] == 11 && tokens[1] == 1 && tokens[2] == 10);
    CHECK(clk_live_reclaim(&live, tokens, 3, &given) == CLK_OK && given == 0);
    /* Only closing is left. */
    clk_emitted one = {{1, 2, 3}, 4};
    clk_inlet inlet;
    uint64_t number = 99;
    CHECK(clk_live_take_in(&live, 4, taken, 8, &given) == CLK_RECLAIMED && given == 0);
    CHECK(clk_live_take(&live, 3, taken, 8, &given) == CLK_RECLAIMED && given == 0);
    CHECK(clk_live_pull(&live, 0, 1, &one) == CLK_RECLAIMED && one.token == 4);
    CHECK(clk_live_inlet(&live, 3, &inlet) == CLK_RECLAIMED && inlet.at == NULL);
    CHECK(clk_live_left(&live, 0, &number) == CLK_RECLAIMED && number == 99);
    CHECK(clk_live_ended(&live) == CLK_RECLAIMED && clk_live_drained(&live) == CLK_RECLAIMED);
    CHECK(clk_live_senders(&live) == 0 && clk_live_queues(&live) == 0 && clk_live_devices(&live) == 0);
    clk_inlet_close(&a);
    clk_live_close(&live);
    clk_inlet_close(&b);
}

static void what_cannot_be_has_a_status(void) {
    clk_live live, none = CLK_NO_LIVE;
    clk_fault fault = {0, 0};
    CHECK(clk_live_open(TWO, strlen(TWO), 0, &live, &fault) == CLK_BAD_ROOM && live.at == NULL && fault.number == 0);
    CHECK(clk_live_open(TWO, strlen(TWO), CLK_MOST_ROOM + 1, &live, NULL) == CLK_BAD_ROOM && live.at == NULL);
    CHECK(clk_live_open("a :: Sendr(0);", 14, 1, &live, &fault) == CLK_FAULT && live.at == NULL && fault.number == 3);
    CHECK(clk_live_open(NULL, 1, 1, &live, &fault) == CLK_NULL && clk_live_open(TWO, 1, 1, NULL, &fault) == CLK_NULL);
    live = live_of(TWO, 1);
    clk_inlet inlet, other;
    CHECK(clk_live_inlet(&live, 4, &inlet) == CLK_UNKNOWN_SENDER && inlet.at == NULL);
    CHECK(clk_live_inlet(&live, 65536 + 3, &inlet) == CLK_UNKNOWN_SENDER && inlet.at == NULL);
    CHECK(clk_live_inlet(&live, 3, &inlet) == CLK_OK && clk_live_inlet(&live, 3, &other) == CLK_HANDED_OUT && other.at == NULL);
    clk_taken taken;
    clk_emitted one;
    clk_departed departed;
    uint64_t number = 99;
    size_t given = 99;
    clk_account account;
    clk_queue queue;
    CHECK(clk_live_take(&live, 4, &taken, 1, &given) == CLK_UNKNOWN_SENDER && given == 0);
    CHECK(clk_live_take(&live, UINT32_C(1) << 31, &taken, 1, &given) == CLK_UNKNOWN_SENDER && given == 0);
    CHECK(clk_live_take(&live, 3, NULL, 1, &given) == CLK_NULL && clk_live_take(&none, 3, &taken, 1, &given) == CLK_SHUT);
    CHECK(clk_live_pull(&live, 1, 0, &one) == CLK_UNKNOWN_DEVICE && clk_live_pull(&live, 0, CLK_END_OF_MOMENTS, &one) == CLK_AT_END);
    CHECK(clk_live_pull_many(&live, 0, CLK_END_OF_MOMENTS, &one, 1, &given) == CLK_AT_END && given == 0);
    CHECK(clk_live_pull_many(&live, 0, 0, NULL, 0, &given) == CLK_OK && given == 0);
    CHECK(clk_live_drain(&live, 1, &departed, 1, 1, &given) == CLK_UNKNOWN_DEVICE && given == 0);
    CHECK(clk_live_due(&live, 1, &number) == CLK_UNKNOWN_DEVICE);
    CHECK(clk_live_left(&live, 1, &number) == CLK_UNKNOWN_DEVICE && clk_live_moment(&live, 1, &number) == CLK_UNKNOWN_DEVICE);
    CHECK(clk_live_account_at(&live, 2, &account) == CLK_UNKNOWN_SENDER && clk_live_queue_at(&live, 2, &queue) == CLK_UNKNOWN_QUEUE);
    CHECK(number == 99);
    CHECK(clk_live_reclaim(&none, &number, 1, &given) == CLK_SHUT && clk_live_ended(&none) == CLK_SHUT);
    CHECK(clk_live_drained(NULL) == CLK_NULL && clk_live_senders(&none) == 0);
    clk_inlet_close(&inlet);
    clk_live_close(&live);
    clk_live_close(&live);
    clk_live_close(NULL);
}

/* Whoever closes first, all is freed (valgrind says so), and what an inlet accepts after its router is gone is lost. */
static void each_may_close_first(void) {
    clk_live live = live_of(TWO, 2);
    clk_inlet a = inlet_of(&live, 3), b = inlet_of(&live, 5);
    offers(&a, 1, 1, 0);
    clk_live_close(&live);
    offers(&a, 1, 2, 1);
    CHECK(clk_inlet_offer(&a, 1, 3, NULL) == CLK_FULL);
    clk_inlet_close(&a);
    clk_inlet_close(&b);
    live = live_of(TWO, 2);
    a = inlet_of(&live, 3);
    offers(&a, 1, 1, 0);
    clk_inlet_close(&a);
    /* The other inlet was not handed out, so that the router never ends. */
    clk_taken taken;
    size_t given = 0;
    CHECK(clk_live_take_in(&live, 1, &taken, 1, &given) == CLK_OK && clk_live_ended(&live) == CLK_NONE);
    clk_live_close(&live);
    live = live_of(TWO, 2);
    clk_live_close(&live);
}

enum { SENDERS = 4, PACKETS = 3000 };

/* A sender on a thread of its own. */
struct producer {
    clk_inlet inlet;
    uint32_t sender;
};

static uint64_t token_of(uint64_t sender, uint64_t number) {
    return sender << 32 | (number ^ 0x5a5a);
}

/* The length of the sender's packet of this number. */
static uint32_t length_of(uint32_t sender, uint32_t number) {
    return 1 + (sender * 7919 + number * 31) % 1500;
}

static void *produces(void *of) {
    struct producer *it = of;
    for (uint32_t number = 0; number < PACKETS;) {
        uint32_t its = 0;
        clk_status status = clk_inlet_offer(&it->inlet, length_of(it->sender, number), token_of(it->sender, number), &its);
        if (status == CLK_FULL) {
            sched_yield();
            continue;
        }
        /* CHECK counts without a lock, so that a failure ends the thread early instead: the packets are then missed. */
        if (status != CLK_OK || its != number)
            break;
        number++;
    }
    clk_inlet_close(&it->inlet);
    return NULL;
}

/* What became of each packet of the senders. */
struct tally {
    uint32_t next[SENDERS], emitted_next[SENDERS], gone[SENDERS];
    unsigned char seen[SENDERS][PACKETS];
    int is_right;
};

/* Notes that a packet with this token is out. Each is out once, with what its sender sent. */
static void goes_out(struct tally *tally, clk_packet packet, uint64_t token) {
    if (packet.sender >= SENDERS || packet.number >= PACKETS || tally->seen[packet.sender][packet.number] != 0
        || token != token_of(packet.sender, packet.number) || packet.length != length_of(packet.sender, packet.number)) {
        tally->is_right = 0;
        return;
    }
    tally->seen[packet.sender][packet.number] = 1;
    tally->gone[packet.sender]++;
}

static void takes_in(struct tally *tally, const clk_taken *taken, size_t given) {
    for (size_t i = 0; i < given; i++) {
        const clk_taken *it = &taken[i];
        /* The packets of a sender are taken in the order in which it sent them. */
        if (it->packet.sender >= SENDERS || it->packet.number != tally->next[it->packet.sender]++ || it->token != token_of(it->packet.sender, it->packet.number))
            tally->is_right = 0;
        if (it->outcome == CLK_REFUSED)
            goes_out(tally, it->packet, it->token);
        if (it->outcome == CLK_EVICTED)
            goes_out(tally, it->evicted, it->evicted_token);
    }
}

static void emits(struct tally *tally, const clk_emitted *packets, size_t given) {
    for (size_t i = 0; i < given; i++) {
        clk_packet packet = packets[i].packet;
        goes_out(tally, packet, packets[i].token);
        /* And emitted in that order. */
        if (packet.sender < SENDERS) {
            tally->is_right = tally->is_right && packet.number >= tally->emitted_next[packet.sender];
            tally->emitted_next[packet.sender] = packet.number + 1;
        }
    }
}

static const char *const FOUR = "a :: Sender(0); b :: Sender(1); c :: Sender(2); e :: Sender(3); p :: Queue(16); q :: FrontDropQueue(16); "
                                "r :: Queue(16); s :: DRRSched(1500, 3000, 1500); d :: ToDevice(link); a -> p -> [0] s; b -> q -> [1] s; "
                                "c -> r -> [2] s; e -> q; s -> d;";

/* So many senders send on threads of their own, while this one takes and pulls. Each packet is out once, with its token. */
static void senders_on_threads(uint32_t senders, int what_fits) {
    clk_live live = live_of(FOUR, 32);
    struct producer producers[SENDERS];
    pthread_t threads[SENDERS];
    static struct tally tally;
    memset(&tally, 0, sizeof tally);
    tally.is_right = 1;
    for (uint32_t sender = 0; sender < SENDERS; sender++) {
        producers[sender].inlet = inlet_of(&live, sender);
        producers[sender].sender = sender;
        if (sender >= senders)
            CHECK(clk_inlet_close(&producers[sender].inlet) == CLK_OK);
    }
    for (uint32_t sender = 0; sender < senders; sender++) {
        if (pthread_create(&threads[sender], NULL, produces, &producers[sender]) != 0) {
            perror("pthread_create");
            exit(2);
        }
    }
    clk_taken taken[24];
    clk_emitted packets[8];
    uint64_t moment = 0, rounds = 0;
    while (clk_live_ended(&live) != CLK_OK || clk_live_drained(&live) != CLK_OK) {
        size_t given = 0;
        clk_status status = what_fits ? clk_live_take_what_fits(&live, 5, taken, 24, &given) : clk_live_take_in(&live, 5, taken, 24, &given);
        tally.is_right = tally.is_right && status <= CLK_NONE && given <= 24;
        takes_in(&tally, taken, given);
        for (size_t i = 0; what_fits && i < given; i++)
            tally.is_right = tally.is_right && taken[i].outcome == CLK_ACCEPTED;
        status = clk_live_pull_many(&live, 0, moment++, packets, rounds++ % 9, &given);
        tally.is_right = tally.is_right && status <= CLK_NONE;
        emits(&tally, packets, given);
        if (given == 0)
            sched_yield();
    }
    for (uint32_t sender = 0; sender < senders; sender++)
        pthread_join(threads[sender], NULL);
    CHECK(tally.is_right);
    for (uint32_t sender = 0; sender < SENDERS; sender++) {
        CHECK(tally.gone[sender] == (sender < senders ? PACKETS : 0));
        clk_account account;
        CHECK(clk_live_account_at(&live, sender, &account) == CLK_OK);
        CHECK(account.accepted.packets + account.refused.packets == tally.gone[sender]);
        CHECK(account.accepted.packets == account.evicted.packets + account.emitted.packets);
    }
    clk_live_close(&live);
}

void test_live(void) {
    packets_go_through();
    rounds_give_each_sender_its_turn();
    full_queues_hold_back_their_senders();
    drains_go_on_in_pieces();
    tokens_are_reclaimed_in_pieces();
    what_cannot_be_has_a_status();
    each_may_close_first();
    for (uint32_t senders = 1; senders <= SENDERS; senders *= 2) {
        senders_on_threads(senders, 0);
        senders_on_threads(senders, 1);
    }
}
