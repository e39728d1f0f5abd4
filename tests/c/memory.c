/* Has each request for memory refused in turn. It stands outside what is proved.
 *
 * The linker hands the library's malloc, calloc, realloc and free to the functions below (--wrap). With the n-th request refused, for n from
 * 1 on, a router can't be opened, live or not: fault 1, a shut router, and nothing is kept. Once it opens, no call takes memory, and closing
 * gives all back. */
#include "clickpull.h"

#include <stdint.h>
#include <stdio.h>
#include <stdlib.h>
#include <string.h>

void *__real_malloc(size_t size);
void *__real_calloc(size_t count, size_t size);
void *__real_realloc(void *block, size_t size);
void __real_free(void *block);
void *__wrap_malloc(size_t size);
void *__wrap_calloc(size_t count, size_t size);
void *__wrap_realloc(void *block, size_t size);
void __wrap_free(void *block);

/* How many requests there were, which of them is refused and whether all after it are, and how many blocks are out. */
static long asked, refused, live;
static int from_then_on;

static int is_refused(void) {
    asked++;
    return asked == refused || (from_then_on && asked > refused);
}

void *__wrap_malloc(size_t size) {
    void *block = is_refused() ? NULL : __real_malloc(size);
    live += block != NULL;
    return block;
}

void *__wrap_calloc(size_t count, size_t size) {
    void *block = is_refused() ? NULL : __real_calloc(count, size);
    live += block != NULL;
    return block;
}

void *__wrap_realloc(void *block, size_t size) {
    void *grown = is_refused() ? NULL : __real_realloc(block, size);
    live += grown != NULL && block == NULL;
    return grown;
}

void __wrap_free(void *block) {
    live -= block != NULL;
    __real_free(block);
}

static int failed;

static void check(int holds, const char *what) {
    if (!holds) {
        failed = 1;
        fprintf(stderr, "memory: request %ld refused: %s\n", refused, what);
    }
}

static const char *const TREES[] = {
    "a :: Sender(0); q :: Queue(3); d :: ToDevice(link); a -> q -> d;",
    "a :: Sender(0); b :: Sender(1); c :: Sender(2); e :: Sender(3); p, q :: Queue(70); r, s :: FrontDropQueue(3); d :: DRRSched(300);"
    "t :: StrideSched(1, 2, 3); o :: RoundRobinSched; h :: Shaper(2, 3); i :: PrioSched; one, two :: ToDevice(link); a -> p -> d; b -> q ->"
    "[1] d; d -> t; c -> r -> [1] t; e -> s -> h -> [2] t; t -> o -> one; z :: Sender(9); y :: Queue; z -> y -> i -> two;",
};

/* A record, in a buffer with room for the lines of one round of calls. */
static char lines[8 * CLK_MOST_LINE];
static clk_record record = {lines, sizeof lines, 0, 0};

/* Every call, while no memory is to be had. */
static void use(clk_router *router) {
    clk_offered offered[2];
    clk_offer_of offers[2] = {{0, 1500}, {0, 40}};
    clk_packet packets[2];
    clk_departure departures[2];
    clk_account account;
    clk_queue queue;
    uint64_t number;
    size_t count;
    for (uint64_t i = 0; i < 300; i++) {
        check(clk_offer(router, 0, (uint32_t)(1 + i), offered) == CLK_OK, "an offer is made");
        check(clk_offer_many(router, offers, 2, offered, &count) == CLK_OK, "offers are made");
        check(clk_pull(router, 0, i, packets) <= CLK_NONE, "a pull is made");
        check(clk_pull_many(router, 0, i, packets, 2, &count) <= CLK_NONE, "pulls are made");
        record.used = 0;
        check(clk_record_offered(&record, offered, 2) == CLK_OK && clk_record_pulls(&record, 1, i, 3) == CLK_OK, "these are recorded");
    }
    check(clk_record_pulls(&record, 0, 299, 100) == CLK_FULL && clk_record_drain(&record, 0) == CLK_OK, "a record gets full");
    check(clk_account_at(router, 0, &account) == CLK_OK, "an account is told");
    check(clk_queue_at(router, 0, &queue) == CLK_OK, "a queue is told");
    check(clk_moment(router, 0, &number) == CLK_OK, "a moment is told");
    check(clk_left(router, 0, &number) == CLK_OK, "what is left is told");
    while (clk_drain(router, 0, departures, 2, 5, &count) == CLK_NONE)
        ;
    check(clk_left(router, 0, &number) == CLK_OK && number == 0, "all is drained");
}

/* Opens with the n-th request refused, for each n, and answers how many were refused. */
static long refuse_each(const char *tree) {
    for (long n = 1;; n++) {
        clk_router router = CLK_NO_ROUTER;
        clk_fault fault = {0, 0};
        asked = 0, refused = n, live = 0, from_then_on = 0;
        clk_status status = clk_open(tree, strlen(tree), &router, &fault);
        if (asked < n) {
            check(status == CLK_OK, "it opens");
            refused = asked, from_then_on = 1;
            use(&router);
            check(asked == refused, "no call but clk_open takes memory");
            clk_close(&router);
            check(live == 0, "closing gives all back");
            return n - 1;
        }
        check(status == CLK_FAULT && fault.number == 1 && fault.offset == 0, "it is fault 1");
        check(router.at == NULL, "the router is shut");
        check(live == 0, "nothing is kept");
    }
}

/* Every call on a live router and its inlets, while no memory is to be had. */
static void use_live(clk_live *router) {
    clk_inlet inlet;
    clk_taken taken[4];
    clk_emitted packets[2];
    clk_departed departed[2];
    clk_account account;
    clk_queue queue;
    uint64_t number;
    size_t count;
    check(clk_live_inlet(router, 0, &inlet) == CLK_OK, "an inlet is handed out");
    for (uint64_t i = 0; i < 300; i++) {
        check(clk_inlet_offer(&inlet, (uint32_t)(1 + i), i, NULL) == CLK_OK, "a packet is accepted");
        check((i % 2 ? clk_live_take_in(router, 2, taken, 4, &count) : clk_live_take(router, 0, taken, 4, &count)) == CLK_OK, "it is taken");
        check(count == 1 && taken[0].token == i, "it comes with its token");
        check(clk_live_pull(router, 0, i, packets) <= CLK_NONE, "a pull is made");
        check(clk_live_pull_many(router, 0, i, packets, 2, &count) <= CLK_NONE, "pulls are made");
        record.used = 0;
        check(clk_record_taken(&record, taken, 1) == CLK_OK, "what was taken is recorded");
    }
    check(clk_live_take_what_fits(router, 2, taken, 4, &count) == CLK_NONE, "nothing is left in an inlet");
    check(clk_live_account_at(router, 0, &account) == CLK_OK, "an account is told");
    check(clk_live_queue_at(router, 0, &queue) == CLK_OK, "a queue is told");
    check(clk_live_moment(router, 0, &number) == CLK_OK && clk_live_left(router, 0, &number) == CLK_OK, "numbers are told");
    while (clk_live_drain(router, 0, departed, 2, 5, &count) == CLK_NONE)
        ;
    check(clk_live_drained(router) == CLK_OK && clk_live_ended(router) == CLK_NONE, "all is drained, and an inlet is open");
    check(clk_inlet_offer(&inlet, 1, 7, NULL) == CLK_OK && clk_live_take(router, 0, taken, 4, &count) == CLK_OK, "one more is taken");
    check(clk_live_reclaim(router, &number, 1, &count) == CLK_NONE && count == 1 && number == 7, "its token is reclaimed");
    clk_inlet_close(&inlet);
}

/* The same of a live router and its inlets. */
static long refuse_each_live(const char *tree) {
    for (long n = 1;; n++) {
        clk_live router = CLK_NO_LIVE;
        clk_fault fault = {0, 0};
        asked = 0, refused = n, live = 0, from_then_on = 0;
        clk_status status = clk_live_open(tree, strlen(tree), 4, &router, &fault);
        if (asked < n) {
            check(status == CLK_OK, "it opens");
            refused = asked, from_then_on = 1;
            use_live(&router);
            check(asked == refused, "no call but clk_live_open takes memory");
            clk_live_close(&router);
            check(live == 0, "closing gives all back");
            return n - 1;
        }
        check(status == CLK_FAULT && fault.number == 1 && fault.offset == 0, "it is fault 1");
        check(router.at == NULL, "the router is shut");
        check(live == 0, "nothing is kept");
    }
}

int main(void) {
    long all = 0;
    for (size_t i = 0; i < sizeof TREES / sizeof *TREES; i++)
        all += refuse_each(TREES[i]) + refuse_each_live(TREES[i]);
    printf("%ld requests refused\n", all);
    return failed;
}
