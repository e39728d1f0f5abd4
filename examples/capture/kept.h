/* The frames that wait, in a list for each sender. This is C and no part of what is proved. */
#ifndef KEPT_H
#define KEPT_H

#include <pcap/pcap.h>
#include <stdint.h>

/* A frame that waits: its number among its sender's, when it came, in microseconds from the first frame on, and its bytes. */
struct frame {
    struct frame *next;
    uint32_t number;
    uint64_t came;
    struct pcap_pkthdr header;
    u_char bytes[];
};

/* The frames of one sender, in order. */
struct kept {
    struct frame *first, *last;
};

/* A copy of a frame; NULL where there is no memory. */
struct frame *copy_frame(const struct pcap_pkthdr *header, const u_char *bytes, uint64_t came);

/* Puts a frame at the back. */
void keep(struct kept *kept, struct frame *frame);

/* Takes out the frame with this number, which is the caller's to free. It stands at the front, or right behind those that schedulers hold.
 * NULL if it isn't there. */
struct frame *take(struct kept *kept, uint32_t number);

#endif
