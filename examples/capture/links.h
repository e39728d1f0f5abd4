/* The links that a tree feeds: each device is a link of its own, and all have one rate. This is C and no part of what is proved. */
#ifndef LINKS_H
#define LINKS_H

#include "captures.h"
#include "clickpull.h"
#include "kept.h"

enum { NUMBERS = 65536 };

/* A link: the frame on it, or NULL, and when it is through with that, in microseconds from the first frame on, as all times here. */
struct device {
    struct frame *frame;
    uint64_t free_at;
};

/* All links, and what waits for them. */
struct links {
    clk_router *router;
    struct captures *captures; /* where frames go that left */
    uint64_t rate;             /* of each link, in bits a second */
    struct device *devices;    /* by their numbers */
    size_t count;
    struct kept kept[NUMBERS]; /* the frames that wait, by senders' numbers */
    uint64_t slowest[NUMBERS]; /* the longest way of a frame that left */
};

/* Makes the links of a router. Stops if an allocation fails. */
void open_links(struct links *links, clk_router *router, struct captures *captures, uint64_t rate);

/* Offers a frame of this sender's, which becomes the links'. */
void offer(struct links *links, uint16_t sender, struct frame *frame);

/* Lets the links work up to a moment. Frames are written in the order in which they leave, whatever their link. */
void work_until(struct links *links, uint64_t moment);

/* Lets the links work until no frame is left, and frees them. */
void finish_links(struct links *links);

#endif
