/* Tests of a router that goes from thread to thread, under a lock of the caller's. They stand outside what is proved. */
#include "check.h"

#include <pthread.h>
#include <stdlib.h>

enum { SENDERS = 4, PACKETS = 500 };

/* A router that threads share under a lock, and what the queues accepted of each sender. */
static struct {
    pthread_mutex_t lock;
    clk_router router;
    unsigned accepted[SENDERS];
} shared = {PTHREAD_MUTEX_INITIALIZER, CLK_NO_ROUTER, {0}};

static void *sends(void *of) {
    unsigned sender = *(const unsigned *)of;
    for (unsigned number = 0; number < PACKETS; number++) {
        pthread_mutex_lock(&shared.lock);
        clk_offered it = offered(&shared.router, sender, 1 + number);
        CHECK(is_packet(it.packet, sender, number, 1 + number));
        shared.accepted[sender] += it.outcome == CLK_ACCEPTED;
        pthread_mutex_unlock(&shared.lock);
    }
    return NULL;
}

static void *closes(void *unused) {
    clk_close(&shared.router);
    return unused;
}

static pthread_t started(void *(*work)(void *), void *with) {
    pthread_t thread;
    if (pthread_create(&thread, NULL, work, with) != 0) {
        perror("pthread_create");
        exit(2);
    }
    return thread;
}

/* Whether a packet is the next of its sender that comes out, by the number after the one before it. */
static int is_in_order(clk_packet it, unsigned after[SENDERS]) {
    if (it.sender >= SENDERS || it.number < after[it.sender] || it.length != 1 + it.number) {
        return 0;
    }
    after[it.sender] = it.number + 1;
    return 1;
}

/* Four threads send while this one pulls, and a fifth closes the router. Each packet that was accepted comes out, in its sender's order. */
static void threads_share_a_router(void) {
    shared.router = opened("a :: Sender(0); b :: Sender(1); c :: Sender(2); e :: Sender(3); p, q :: Queue(64); s :: RoundRobinSched; "
                           "d :: ToDevice(link); a -> p -> [0] s; b -> p; c -> q -> [1] s; e -> q; s -> d;");
    unsigned numbers[SENDERS], emitted[SENDERS] = {0}, after[SENDERS] = {0};
    pthread_t threads[SENDERS];
    for (unsigned sender = 0; sender < SENDERS; sender++) {
        numbers[sender] = sender;
        threads[sender] = started(sends, &numbers[sender]);
    }
    int are_in_order = 1, are_joined = 0;
    clk_status status = CLK_NONE;
    for (unsigned moment = 0; !are_joined || status == CLK_OK; moment++) {
        for (unsigned sender = 0; moment == PACKETS && sender < SENDERS; sender++) {
            pthread_join(threads[sender], NULL);
            are_joined = 1;
        }
        clk_packet it = {0, 0, 0};
        pthread_mutex_lock(&shared.lock);
        status = clk_pull(&shared.router, 0, moment, &it);
        pthread_mutex_unlock(&shared.lock);
        if (status == CLK_OK) {
            are_in_order = are_in_order && is_in_order(it, after);
            emitted[it.sender % SENDERS]++;
        }
    }
    CHECK(are_in_order && left(&shared.router, 0) == 0);
    for (unsigned sender = 0; sender < SENDERS; sender++) {
        CHECK(emitted[sender] == shared.accepted[sender]);
    }
    // Each queue was offered 1,000 packets, and has room for 64.
    CHECK(emitted[0] + emitted[1] >= 64 && emitted[2] + emitted[3] >= 64);
    pthread_join(started(closes, NULL), NULL);
    CHECK(shared.router.at == NULL);
}

void test_threads(void) {
    threads_share_a_router();
}
