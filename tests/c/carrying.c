/* A test of packets of the caller's own, kept as the header says: a list for each sender, which is taken from its front. It stands
 * outside what is proved. */
#include "check.h"

enum { SENDERS = 4, ROUNDS = 4000, MOST = 64, HELD = 2 };

/* A packet of the caller's: here a number that no other has, and what the library told of it. */
struct own {
    unsigned value;
    uint32_t number;
};

/* Those of one sender that were accepted, and neither evicted nor pulled, in order. */
struct list {
    struct own items[MOST];
    size_t length;
};

static struct list lists[SENDERS];
static unsigned state = 1;

/* A number at random, below `end`. */
static unsigned random_below(unsigned end) {
    state = state * 1103515245u + 12345u;
    return (state >> 16) % end;
}

static void take_out(struct list *list, size_t place) {
    for (size_t i = place + 1; i < list->length; i++)
        list->items[i - 1] = list->items[i];
    list->length--;
}

/* At which place a number stands, from the front. */
static size_t place_of(const struct list *list, uint32_t number) {
    size_t place = 0;
    while (place < list->length && list->items[place].number != number)
        place++;
    return place;
}

static void offer_own(clk_router *router, unsigned value) {
    unsigned sender = random_below(SENDERS);
    clk_offered it = offered(router, sender, 1 + random_below(1500));
    if (it.outcome == CLK_REFUSED)
        return;
    if (it.outcome == CLK_EVICTED) {
        struct list *list = &lists[it.evicted.sender];
        size_t place = place_of(list, it.evicted.number);
        // No more stand before it than schedulers hold on its way.
        CHECK(place < list->length && place <= HELD);
        take_out(list, place);
    }
    struct list *list = &lists[sender];
    CHECK(list->length < MOST);
    list->items[list->length++] = (struct own){value, it.packet.number};
}

static void pull_own(clk_router *router, uint64_t moment) {
    clk_packet packet = pulled(router, 0, moment);
    if (packet.length == 0)
        return;
    struct list *list = &lists[packet.sender];
    CHECK(list->length > 0 && list->items[0].number == packet.number);
    take_out(list, 0);
}

/* What is pulled always belongs to the front, below two DRRScheds and with queues that evict. */
void test_carrying(void) {
    clk_router router = opened("a :: Sender(0); b :: Sender(1); c :: Sender(2); e :: Sender(3);"
                               "p :: FrontDropQueue(5); q :: Queue(3); r :: FrontDropQueue(2); low, top :: DRRSched(300);"
                               "d :: ToDevice(link); a -> p; b -> p; c -> q; e -> r;"
                               "p -> low; q -> [1] low; low -> top; r -> [1] top; top -> d;");
    for (unsigned i = 0; i < ROUNDS; i++) {
        offer_own(&router, i);
        pull_own(&router, i);
    }
    size_t kept = 0;
    for (size_t i = 0; i < SENDERS; i++)
        kept += lists[i].length;
    CHECK(kept == left(&router, 0));
    clk_close(&router);
}
