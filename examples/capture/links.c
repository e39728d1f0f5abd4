/* Pulls the devices of a tree at the rate of their links. This is C and no part of what is proved. */
#include "links.h"
#include "told.h"

#include <inttypes.h>
#include <stdlib.h>

void open_links(struct links *links, clk_router *router, struct captures *captures, uint64_t rate) {
    links->router = router;
    links->captures = captures;
    links->rate = rate;
    links->count = clk_devices(router);
    links->devices = calloc(links->count, sizeof *links->devices);
    if (!links->devices)
        stop("no memory");
}

/* How long a frame takes on a link, rounded up. It has one byte at least. */
static uint64_t on_link(const struct links *links, uint64_t bytes) {
    return (bytes * 8 * MICROSECONDS - 1) / links->rate + 1;
}

static int is_waiting(const struct links *links, size_t number) {
    uint64_t left = 0;
    clk_left(links->router, (uint16_t)number, &left);
    return left > 0;
}

/* The device whose link is free first, among those with a frame on the link or one that waits. Returns `count` if there is none. */
static size_t next_device(const struct links *links) {
    size_t next = links->count;
    for (size_t i = 0; i < links->count; i++)
        if (next == links->count || links->devices[i].free_at < links->devices[next].free_at)
            if (links->devices[i].frame || is_waiting(links, i))
                next = i;
    return next;
}

/* Writes the frame that is on the link, if there is one. */
static void leave(struct links *links, struct device *device) {
    if (!device->frame)
        return;
    write_frame(links->captures, device->frame, device->free_at);
    free(device->frame);
    device->frame = NULL;
}

/* The link takes the frame of a packet. */
static void put_on_link(struct links *links, struct device *device, clk_packet packet) {
    device->frame = take(&links->kept[packet.sender], packet.number);
    if (!device->frame)
        stop("a frame was emitted that wasn't offered");
    device->free_at += on_link(links, packet.length);
    uint64_t way = device->free_at - device->frame->came;
    if (way > links->slowest[packet.sender])
        links->slowest[packet.sender] = way;
}

/* A free link takes a frame, if the tree gives one, and else looks again a tick later. */
static void pull(struct links *links, size_t number) {
    struct device *device = &links->devices[number];
    clk_packet packet;
    clk_status status = clk_pull(links->router, (uint16_t)number, device->free_at, &packet);
    if (status == CLK_OK)
        put_on_link(links, device, packet);
    else if (status == CLK_NONE)
        device->free_at++;
    else
        stop("a pull of device %zu at %" PRIu64 ": %s", number, device->free_at, clk_status_text(status));
}

/* What happens when a link is free. */
static void go_on(struct links *links, size_t number) {
    leave(links, &links->devices[number]);
    if (is_waiting(links, number))
        pull(links, number);
}

void work_until(struct links *links, uint64_t moment) {
    size_t next;
    while ((next = next_device(links)) < links->count && links->devices[next].free_at < moment)
        go_on(links, next);
    for (size_t i = 0; i < links->count; i++)
        if (links->devices[i].free_at < moment)
            links->devices[i].free_at = moment;
}

void offer(struct links *links, uint16_t sender, struct frame *frame) {
    clk_offered offered;
    uint16_t length = frame->header.len > UINT16_MAX ? UINT16_MAX : (uint16_t)frame->header.len;
    clk_status status = clk_offer(links->router, sender, length, &offered);
    if (status != CLK_OK)
        stop("an offer of sender %u: %s", sender, clk_status_text(status));
    if (offered.outcome == CLK_EVICTED)
        free(take(&links->kept[offered.evicted.sender], offered.evicted.number));
    frame->number = offered.packet.number;
    if (offered.outcome == CLK_REFUSED)
        free(frame);
    else
        keep(&links->kept[sender], frame);
}

void finish_links(struct links *links) {
    size_t next;
    while ((next = next_device(links)) < links->count)
        go_on(links, next);
    free(links->devices);
}
