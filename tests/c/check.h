/* What the tests of the C library share. They stand outside what is proved. */
#ifndef CHECK_H
#define CHECK_H

#include "clickpull.h"

#include <stdio.h>

/* How many checks were made, and how many of them failed. */
extern int checked, failed;

/* Says where a check fails, and goes on. */
#define CHECK(IT)                                                                                                                          \
    do {                                                                                                                                   \
        checked++;                                                                                                                         \
        if (!(IT)) {                                                                                                                       \
            failed++;                                                                                                                      \
            fprintf(stderr, "%s:%d: %s: it doesn't hold: %s\n", __FILE__, __LINE__, __func__, #IT);                                        \
        }                                                                                                                                  \
    } while (0)

/* The router of a text that is right. */
clk_router opened(const char *text);

/* Whether a packet is this one. */
int is_packet(clk_packet packet, unsigned sender, unsigned number, unsigned length);

/* Offers a packet, and answers what became of it. */
clk_offered offered(clk_router *router, unsigned sender, unsigned length);

/* Pulls a device, and answers the packet; one of length 0 where none came. */
clk_packet pulled(clk_router *router, unsigned device, uint64_t moment);

/* How many packets are left for a device. */
uint64_t left(const clk_router *router, unsigned device);

/* The tests, a function a subject. */
void test_opening(void);
void test_refusals(void);
void test_offers(void);
void test_pulls(void);
void test_draining(void);
void test_tables(void);
void test_carrying(void);
void test_threads(void);
void test_live(void);
void test_records(void);

#endif
