/* Reads addresses and ports: Ethernet with or without VLAN tags, IPv4, IPv6 with extension headers, TCP and UDP. This is C and no part of
 * what is proved. */
#include "ends.h"

#include <string.h>

enum { TCP = 6, UDP = 17, SOURCE_V4 = 12, SOURCE_V6 = 8, HEADER_V4 = 20, HEADER_V6 = 40 };

/* Extension headers of IPv6 (RFC 8200), and how many of them may stand before the ports. */
enum { HOP_BY_HOP = 0, ROUTING = 43, FRAGMENT = 44, DESTINATION = 60, MOST_EXTENSIONS = 16 };

static unsigned two_bytes(const uint8_t *at) {
    return (unsigned)at[0] << 8 | at[1];
}

static void read_addresses(const uint8_t *at, size_t size, struct ends *ends) {
    memset(ends, 0, sizeof *ends);
    ends->source.size = ends->target.size = size;
    memcpy(ends->source.address, at, size);
    memcpy(ends->target.address, at + size, size);
}

/* TCP and UDP begin with the two ports. */
static void read_ports(unsigned protocol, const uint8_t *at, size_t size, struct ends *ends) {
    if ((protocol != TCP && protocol != UDP) || size < 4)
        return;
    ends->source.port = (uint16_t)two_bytes(at);
    ends->target.port = (uint16_t)two_bytes(at + 2);
}

static int read_v4(const uint8_t *packet, size_t size, struct ends *ends) {
    size_t header = (size_t)(packet[0] & 15) * 4;
    if (size < HEADER_V4 || header < HEADER_V4)
        return 0;
    read_addresses(packet + SOURCE_V4, 4, ends);
    // Only the first fragment has ports.
    if (size > header && (two_bytes(packet + 6) & 0x1fff) == 0)
        read_ports(packet[9], packet + header, size - header, ends);
    return 1;
}

/* Moves past an extension header, and sets `protocol` to that of what follows. Returns 0 if it is cut, or begins a later fragment. */
static int skip_extension(unsigned *protocol, const uint8_t **at, size_t *size) {
    const uint8_t *header = *at;
    if (*size < 8 || (*protocol == FRAGMENT && two_bytes(header + 2) >> 3 != 0))
        return 0;
    size_t length = *protocol == FRAGMENT ? 8 : ((size_t)header[1] + 1) * 8;
    if (*size < length)
        return 0;
    *protocol = header[0];
    *at += length;
    *size -= length;
    return 1;
}

static int is_extension(unsigned protocol) {
    return protocol == HOP_BY_HOP || protocol == ROUTING || protocol == FRAGMENT || protocol == DESTINATION;
}

/* Reads the ports behind the extension headers, if there are no more of these than MOST_EXTENSIONS. */
static void read_ports_v6(unsigned protocol, const uint8_t *at, size_t size, struct ends *ends) {
    for (int count = 0; count < MOST_EXTENSIONS && is_extension(protocol); count++)
        if (!skip_extension(&protocol, &at, &size))
            return;
    read_ports(protocol, at, size, ends);
}

static int read_v6(const uint8_t *packet, size_t size, struct ends *ends) {
    if (size < HEADER_V6)
        return 0;
    read_addresses(packet + SOURCE_V6, 16, ends);
    read_ports_v6(packet[6], packet + HEADER_V6, size - HEADER_V6, ends);
    return 1;
}

static int read_packet(const uint8_t *packet, size_t size, struct ends *ends) {
    if (size == 0)
        return 0;
    if (packet[0] >> 4 == 4)
        return read_v4(packet, size, ends);
    return packet[0] >> 4 == 6 && read_v6(packet, size, ends);
}

/* The packet stands behind two addresses, tags of VLANs, and the type of what it is. */
static int read_ethernet(const uint8_t *frame, size_t size, struct ends *ends) {
    size_t at = 12;
    while (at + 6 <= size && (two_bytes(frame + at) == 0x8100 || two_bytes(frame + at) == 0x88a8))
        at += 4;
    if (at + 2 > size || (two_bytes(frame + at) != 0x0800 && two_bytes(frame + at) != 0x86dd))
        return 0;
    return read_packet(frame + at + 2, size - at - 2, ends);
}

int read_ends(enum link link, const uint8_t *frame, size_t size, struct ends *ends) {
    return link == ETHERNET ? read_ethernet(frame, size, ends) : read_packet(frame, size, ends);
}
