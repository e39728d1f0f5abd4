/* Tests of opening and closing: routers, faults with their places, and what can't be opened. They stand outside what is proved. */
#include "check.h"

#include <string.h>

/* A text, and the fault that it has. */
static const struct {
    const char *text;
    uint32_t number, offset;
} FAULTS[] = {
    {"", 11, 0},
    {"a :: Sender(0); q :: Queue; a -> q", 9, 16},
    {"a : Sender(0)", 2, 2},
    {"a :: Sender(0) ! /* never closed", 2, 15},
    {"a :: Sender(0); /* never closed", 2, 16},
    {"a :: Sender(0); q :: Heap(3);", 3, 21},
    {"a :: Sender;", 4, 5},
    {"q :: Queue(1); q :: Queue(2);", 5, 15},
    {"a :: Sender(0); q :: Queue; d :: ToDevice(link); a -> q -> e;", 6, 59},
};

static void faults_say_where(void) {
    for (size_t i = 0; i < sizeof FAULTS / sizeof *FAULTS; i++) {
        clk_router router = CLK_NO_ROUTER;
        clk_fault fault = {0, 77};
        CHECK(clk_open(FAULTS[i].text, strlen(FAULTS[i].text), &router, &fault) == CLK_FAULT);
        CHECK(router.at == NULL);
        CHECK(fault.number == FAULTS[i].number);
        CHECK(fault.offset == FAULTS[i].offset);
        CHECK(clk_fault_name(fault.number)[0] != 0);
    }
}

/* An explanation is filled in as far as there is room, and its length is told. */
static void faults_are_explained(void) {
    static const char TEXT[] = "a :: Sender(0);\nq :: Heap(3);";
    static const char LINES[] = "2:6: there is no class 'Heap'\n    q :: Heap(3);\n         ^\nexpected Sender, Queue, FrontDropQueue, PrioSched, "
                                "RoundRobinSched, DRRSched, StrideSched, Shaper or ToDevice\n";
    char buffer[CLK_MOST_EXPLANATION];
    clk_router router;
    clk_fault fault;
    size_t needed = 0;
    CHECK(clk_open(TEXT, strlen(TEXT), &router, &fault) == CLK_FAULT);
    CHECK(clk_explain(TEXT, strlen(TEXT), &fault, buffer, sizeof buffer, &needed) == CLK_OK);
    CHECK(needed == strlen(LINES) && memcmp(buffer, LINES, needed) == 0);
    memset(buffer, '#', sizeof buffer);
    CHECK(clk_explain(TEXT, strlen(TEXT), &fault, buffer, needed - 1, &needed) == CLK_FULL);
    CHECK(needed == strlen(LINES) && memcmp(buffer, LINES, needed - 1) == 0 && buffer[needed - 1] == '#');
    CHECK(clk_explain(TEXT, strlen(TEXT), &fault, buffer, needed, &needed) == CLK_OK);
    CHECK(clk_explain(TEXT, strlen(TEXT), &fault, NULL, 0, &needed) == CLK_FULL && needed == strlen(LINES));
}

/* A fault without a place, numbers that no opening has, a place that the text doesn't have, and null pointers. */
static void any_fault_is_explained(void) {
    static const char NO_DEVICE[] = "no ToDevice is declared\nexpected a link, as in 'uplink :: ToDevice(eth0);'\n";
    char buffer[CLK_MOST_EXPLANATION];
    clk_fault fault = {11, 0};
    size_t needed = 77;
    CHECK(clk_explain(NULL, 0, &fault, buffer, sizeof buffer, &needed) == CLK_OK);
    CHECK(needed == strlen(NO_DEVICE) && memcmp(buffer, NO_DEVICE, needed) == 0);
    for (fault.number = 0; fault.number < 100; fault.number++) {
        fault.offset = UINT32_MAX;
        CHECK(clk_explain("a -> b\n", 7, &fault, buffer, sizeof buffer, &needed) == CLK_OK);
        CHECK((needed != 0) == (clk_fault_name(fault.number)[0] != 0));
        CHECK(needed == 0 || buffer[needed - 1] == '\n');
    }
    fault.number = 11;
    CHECK(clk_explain(NULL, 1, &fault, buffer, sizeof buffer, &needed) == CLK_NULL && needed == 0);
    CHECK(clk_explain("", 0, NULL, buffer, sizeof buffer, &needed) == CLK_NULL);
    CHECK(clk_explain("", 0, &fault, NULL, 1, &needed) == CLK_NULL);
    CHECK(clk_explain("", 0, &fault, buffer, sizeof buffer, NULL) == CLK_NULL);
}

/* A fault needn't be wanted. */
static void a_fault_may_be_left_out(void) {
    clk_router router;
    CHECK(clk_open("x", 1, &router, NULL) == CLK_FAULT);
    CHECK(router.at == NULL);
    CHECK(clk_open("d :: ToDevice(link)", 0, &router, NULL) == CLK_FAULT);
    CHECK(clk_open(NULL, 0, &router, NULL) == CLK_FAULT);
    clk_close(&router);
}

/* Only the bytes that are said to be the text's are looked at. */
static void a_text_needs_no_zero(void) {
    static const char TEXT[] = "a :: Sender(0); q :: Queue(1); d :: ToDevice(link); a -> q -> d; ! and what isn't Click's";
    clk_router router;
    CHECK(clk_open(TEXT, 64, &router, NULL) == CLK_OK);
    clk_close(&router);
}

static void closing_shuts(void) {
    clk_router router = opened("a :: Sender(0); q :: Queue(1); d :: ToDevice(link); a -> q -> d;");
    CHECK(clk_devices(&router) == 1);
    offered(&router, 0, 100);
    clk_close(&router);
    CHECK(router.at == NULL);
    clk_close(&router);
    clk_close(NULL);
    CHECK(router.at == NULL);
}

/* Two routers of one text have nothing in common. */
static void routers_stand_apart(void) {
    const char *text = "a :: Sender(0); q :: Queue(1); d :: ToDevice(link); a -> q -> d;";
    clk_router one = opened(text), other = opened(text);
    offered(&one, 0, 100);
    CHECK(left(&one, 0) == 1);
    CHECK(left(&other, 0) == 0);
    clk_close(&one);
    CHECK(is_packet(offered(&other, 0, 7).packet, 0, 0, 7));
    CHECK(is_packet(pulled(&other, 0, 0), 0, 0, 7));
    clk_close(&other);
}

void test_opening(void) {
    faults_say_where();
    faults_are_explained();
    any_fault_is_explained();
    a_fault_may_be_left_out();
    a_text_needs_no_zero();
    closing_shuts();
    routers_stand_apart();
}
