/* Keeps the frames that wait, as clickpull.h says: a list for each sender. This is C and no part of what is proved. */
#include "kept.h"

#include <stdlib.h>
#include <string.h>

struct frame *copy_frame(const struct pcap_pkthdr *header, const u_char *bytes, uint64_t came) {
    struct frame *frame = malloc(sizeof *frame + header->caplen);
    if (!frame)
        return NULL;
    *frame = (struct frame){.came = came, .header = *header};
    memcpy(frame->bytes, bytes, header->caplen);
    return frame;
}

void keep(struct kept *kept, struct frame *frame) {
    frame->next = NULL;
    if (kept->first)
        kept->last->next = frame;
    else
        kept->first = frame;
    kept->last = frame;
}

struct frame *take(struct kept *kept, uint32_t number) {
    struct frame *before = NULL, *frame = kept->first;
    while (frame && frame->number != number) {
        before = frame;
        frame = frame->next;
    }
    if (!frame)
        return NULL;
    if (before)
        before->next = frame->next;
    else
        kept->first = frame->next;
    if (kept->last == frame)
        kept->last = before;
    return frame;
}
