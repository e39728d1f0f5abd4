/* The ends of a packet: its addresses and ports. This is C and no part of what is proved. */
#ifndef ENDS_H
#define ENDS_H

#include <stddef.h>
#include <stdint.h>

/* One end: an address, of 4 or 16 bytes, and a port, 0 where the packet has none. */
struct end {
    uint8_t address[16];
    size_t size;
    uint16_t port;
};

/* Where a packet comes from and where it goes. */
struct ends {
    struct end source, target;
};

/* How the frames of a capture begin. */
enum link { ETHERNET, BARE };

/* Reads the ends of a frame of IPv4 or IPv6, of which so many bytes are there. Says 0 where it is none, or cut before its addresses. */
int read_ends(enum link link, const uint8_t *frame, size_t size, struct ends *ends);

#endif
