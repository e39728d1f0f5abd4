/* Clickpull for C: bounded queues and the tree of schedulers through which a link pulls them.
 *
 * This header stands outside what is proved. The exports of the library are proved (clk_router_open and so on). The functions that callers
 * use (clk_open and so on) test pointers and call the exports; tests/library tests them.
 *
 * A router is opened from a text in Click's language (docs/LIBRARY.md and docs/FORMATS.md have all elements):
 *
 *     lan :: Sender(0); waiting :: Queue(4); pace :: Shaper(1, 3); uplink :: ToDevice(ppp0);
 *     lan -> waiting -> pace -> uplink;
 *
 * Senders offer packets to their queues, and each device pulls packets through its tree. Of a packet the library carries its sender, its
 * number and its length, and no contents. "Packets of your own", below, says how a caller keeps the contents.
 *
 * A clk_router takes one call at a time, also for offers. A clk_live ("live routers", below) has an inlet for each sender. The sender
 * offers from a thread of its own, without a lock, and each packet travels with a token of the caller's.
 *
 * Use it so, and link with -lclickpull (pkg-config clickpull):
 *
 *     clk_router router;
 *     clk_fault fault;
 *     if (clk_open(text, strlen(text), &router, &fault) != CLK_OK)
 *         return fprintf(stderr, "fault %u: %s at byte %u\n", fault.number, clk_fault_name(fault.number), fault.offset), 1;
 *     clk_offered offered;
 *     clk_packet packet;
 *     if (clk_offer(&router, 0, 1500, &offered) != CLK_OK || offered.outcome == CLK_REFUSED)
 *         drop(packet_of_mine);
 *     while (clk_pull(&router, 0, now, &packet) == CLK_OK)
 *         transmit(packet.sender, packet.number);
 *     clk_close(&router);
 *
 * A pull that emits nothing doesn't mean that nothing is left: a Shaper may have no token at this moment, or a DRRSched may need another
 * turn. A caller with nothing else to do pulls again at the next moment while clk_left isn't 0.
 *
 * UNITS. Lengths and totals of lengths are in bytes. Moments are in ticks; the caller decides how long a tick is. The rate of a Shaper is
 * in packets a tick. Capacities and what is left are in packets.
 *
 * WHO OWNS WHAT. clk_open makes a router, which the caller holds as a clk_router and frees with clk_close. It may be copied, as a pointer
 * may: the copies are one router, and only one of them is closed. The caller keeps all else that it hands in. The library reads or fills it
 * during the call and keeps no pointer to it, so the text isn't needed after clk_open. Of all calls on a router only clk_open allocates
 * memory, and only clk_close frees it.
 *
 * WHAT THE CALLER OWES. Calls test what they can, and return a status: for a null pointer, a shut router, a number out of range, an unknown
 * sender or device. What follows no call can test, so the caller has to keep it:
 *
 *   - A router that was closed isn't used again through a copy of its clk_router. (clk_close sets the pointer in the one that it gets to
 *     null, and later calls with it return CLK_SHUT.)
 *   - A clk_router is filled by clk_open or clk_close, or is CLK_NO_ROUTER, before another call gets it.
 *   - A router that is open isn't opened over: its memory would leak.
 *   - Calls on one router come one after the other. They may come from several threads, if each call happens before the next: by a lock of
 *     the caller's, by the start or the join of a thread, or by a sequentially consistent atomic operation. Two routers share nothing.
 *   - Pointers point to as much as the call says: `length` bytes of a text, `count` elements of an array. What a call fills overlaps
 *     nothing else that it gets.
 *   - No call is made from a signal handler, nor in the forked child of a process with several threads. malloc, realloc and free belong to
 *     one allocator, and align as C requires.
 */
#ifndef CLICKPULL_H
#define CLICKPULL_H

#ifdef __cplusplus
#if __cplusplus < 201103L
#error "clickpull.h needs C++11 or a later C++: compile with -std=c++11 or above"
#endif
#elif !defined(__STDC_VERSION__) || __STDC_VERSION__ < 201112L
#error "clickpull.h needs C11 or a later C: compile with -std=c11 or above"
#endif

#include <stddef.h>
#include <stdint.h>

#ifdef __cplusplus
extern "C" {
#endif

/* ------------------------------------------------------------------------------------------------------------ version */

/* The version of this header, MAJOR.MINOR.PATCH. The soname of the shared library ends in MAJOR, and before version 1.0 in 0.MINOR, since a
 * minor version may then break callers. What else tells the version is read from here or compared with it. */
#define CLK_VERSION_MAJOR 0
#define CLK_VERSION_MINOR 1
#define CLK_VERSION_PATCH 0

/* The version of this header as a text, such as "1.2.3". */
#define CLK_VERSION CLK_DOTTED(CLK_VERSION_MAJOR, CLK_VERSION_MINOR, CLK_VERSION_PATCH)
#define CLK_DOTTED(MAJOR, MINOR, PATCH) CLK_QUOTED(MAJOR) "." CLK_QUOTED(MINOR) "." CLK_QUOTED(PATCH)
#define CLK_QUOTED(IT) #IT

/* The version of the library to which the program is linked, as a text like CLK_VERSION. An installed library has this call; the archive
 * that `rt lib` makes has only the exports that are proved. */
extern const char *clk_version(void);

/* ------------------------------------------------------------------------------------------------------------ statuses */

/* What calls return. Unless a call says otherwise, a status other than CLK_OK means that nothing has changed and nothing was filled in. The
 * counts `done` and `given` are set in any case, if the call gets a pointer to them. */
typedef enum clk_status {
    CLK_OK = 0,             /* done */
    CLK_NONE = 1,           /* no packet was taken or emitted; a drain or a reclaim has more to do; or what was asked isn't true yet */
    CLK_SHUT = 2,           /* the router or the inlet is shut: it was closed, or not opened */
    CLK_NULL = 3,           /* a pointer is null */
    CLK_UNKNOWN_SENDER = 4, /* the tree has no sender with this number, or at this place */
    CLK_UNKNOWN_DEVICE = 5, /* the tree has no device with this number */
    CLK_BAD_LENGTH = 6,     /* the length of a packet is not from 1 to 65,535 */
    CLK_AT_END = 7,         /* the sender has offered 4,294,967,295 packets; the moment is 2^44 ticks or more; the device was pulled 2^63
                             * times, the most that it may be; or a limit of records is reached (see there) */
    CLK_UNKNOWN_QUEUE = 8,  /* the tree has no queue with this number */
    CLK_FAULT = 9,          /* the text makes no router, or an allocation failed: see the fault */
    CLK_FULL = 10,          /* the inlet has no room for the packet now, or a buffer has none for lines, for an explanation or for a name */
    CLK_BAD_ROOM = 11,      /* the room of inlets is not from 1 to 16,777,216 */
    CLK_HANDED_OUT = 12,    /* the inlet of this sender was handed out before */
    CLK_RECLAIMED = 13      /* the tokens of the live router were reclaimed: call only clk_live_close and clk_live_reclaim */
} clk_status;

/* The outcome of an offer. */
typedef enum clk_outcome {
    CLK_ACCEPTED = 0, /* its queue accepted it */
    CLK_REFUSED = 1,  /* its queue, a full Queue, refused it */
    CLK_EVICTED = 2   /* its queue, a full FrontDropQueue, accepted it and evicted the packet at its front */
} clk_outcome;

/* Moments are below this number of ticks. */
#define CLK_END_OF_MOMENTS (UINT64_C(1) << 44)

/* ------------------------------------------------------------------------------------------------------------ values */

/* A router, or none if `at` is null. `at` belongs to the library; a caller may copy it. */
typedef struct clk_router {
    void *at;
} clk_router;

/* The value of a variable that has no router yet: clk_router router = CLK_NO_ROUTER; */
#define CLK_NO_ROUTER {NULL}

/* Why no router was opened. */
typedef struct clk_fault {
    uint32_t number; /* the fault's number, as in docs/FORMATS.md; clk_fault_name has its name */
    uint32_t offset; /* at which byte of the text, from 0; 0 if the fault has no place (1, 11 and 18) */
} clk_fault;

/* A packet, 8 bytes. */
typedef struct clk_packet {
    uint32_t number; /* its place among all packets that its sender offered, also refused ones, from 0 */
    uint16_t sender; /* its sender's number, that of Sender(N) */
    uint16_t length; /* its length in bytes, 1 to 65,535 */
} clk_packet;

/* What an offer returns. */
typedef struct clk_offered {
    clk_packet packet;  /* the packet, with its number */
    clk_packet evicted; /* the packet that was evicted for it, maybe of another sender; all zero unless the outcome is CLK_EVICTED */
    uint32_t outcome;   /* a clk_outcome */
} clk_offered;

/* One of several offers. */
typedef struct clk_offer_of {
    uint32_t sender; /* the sender's number */
    uint32_t length; /* the packet's length in bytes, 1 to 65,535 */
} clk_offer_of;

/* A packet that a drain emitted. */
typedef struct clk_departure {
    uint64_t moment; /* when it was emitted, in ticks */
    clk_packet packet;
} clk_departure;

/* How many packets, and the sum of their lengths in bytes. */
typedef struct clk_total {
    uint64_t packets;
    uint64_t bytes;
} clk_total;

/* The totals of the packets that a sender offered. Accepted and refused together are what it offered. Evicted and emitted are parts of
 * accepted; the rest of accepted is in its queue or held by a scheduler. */
typedef struct clk_account {
    clk_total accepted;
    clk_total refused;
    clk_total evicted; /* evicted for later packets, its own or another sender's */
    clk_total emitted; /* emitted by the device */
    uint16_t sender;   /* the sender's number */
    uint16_t queue;    /* the number of the queue to which it offers */
} clk_account;

/* A queue. */
typedef struct clk_queue {
    uint64_t capacity;   /* how many packets it holds at most */
    uint64_t held;       /* how many it holds now, without those held by schedulers */
    uint16_t device;     /* the number of the device that emits its packets */
    uint16_t front_drop; /* 1 for a FrontDropQueue, 0 for a Queue */
} clk_queue;

/* An inlet, or none if `at` is null. `at` belongs to the library; a caller may copy it. */
typedef struct clk_inlet {
    void *at;
} clk_inlet;

/* The value of a variable that has no inlet yet: clk_inlet inlet = CLK_NO_INLET; */
#define CLK_NO_INLET {NULL}

/* One of several packets for an inlet. */
typedef struct clk_item {
    uint64_t token;  /* a value of the caller's, which goes with the packet */
    uint32_t length; /* the packet's length in bytes, 1 to 65,535 */
} clk_item;

/* A live router, or none if `at` is null. `at` belongs to the library; a caller may copy it. */
typedef struct clk_live {
    void *at;
} clk_live;

/* The value of a variable that has no live router yet: clk_live live = CLK_NO_LIVE; */
#define CLK_NO_LIVE {NULL}

/* How many bytes an explanation of a fault has at most. */
#define CLK_MOST_EXPLANATION 1024

/* The greatest room of an inlet, in packets. */
#define CLK_MOST_ROOM (UINT32_C(1) << 24)

/* How many packets one call of clk_live_take, clk_live_take_in or clk_live_take_what_fits takes at most. */
#define CLK_MOST_TAKEN 64

/* A packet that was taken from its inlet and offered to its queue, with the outcome. */
typedef struct clk_taken {
    clk_packet packet;      /* the packet, with its number */
    uint64_t token;         /* the token that came with it */
    clk_packet evicted;     /* the packet that was evicted for it, maybe of another sender; all zero unless the outcome is CLK_EVICTED */
    uint64_t evicted_token; /* the token that came with the evicted packet, 0 unless the outcome is CLK_EVICTED */
    uint32_t outcome;       /* a clk_outcome */
} clk_taken;

/* A packet that a device of a live router emitted. */
typedef struct clk_emitted {
    clk_packet packet;
    uint64_t token; /* the token that came with it */
} clk_emitted;

/* A packet that a drain of a live router emitted. */
typedef struct clk_departed {
    uint64_t moment; /* when it was emitted, in ticks */
    clk_packet packet;
    uint64_t token; /* the token that came with it */
} clk_departed;

/* A record: the script of what a router did (docs/FORMATS.md), in a buffer of the caller's. clk_record record = {buffer, size, 0, 0}; */
typedef struct clk_record {
    char *text;     /* the buffer; no zero is written behind its text */
    size_t room;    /* how many bytes it has */
    size_t used;    /* how many of them are filled, from the front; a caller that has written these to a file sets it to 0 */
    uint32_t lines; /* how many lines the record has, those that were written to a file among them */
} clk_record;

/* How many bytes a line of a record has at most. */
#define CLK_MOST_LINE 25

/* How many lines a record has at most. */
#define CLK_MOST_LINES 1000000

/* Below which number of ticks a moment of a record is. */
#define CLK_END_OF_RECORDED_MOMENTS (UINT64_C(1) << 40)

/* ------------------------------------------------------------------------------------------------------------ exports */

/* What the library exports. Don't call these: the functions below test pointers and call them. An array is handed over as its pointer and
 * then its length. The exports that only read a router take it by the same pointer type, and change nothing. */
extern uint32_t clk_router_open(const uint8_t *text, size_t length, clk_router *router, clk_fault *fault);
extern void clk_router_close(clk_router router);
extern uint32_t clk_router_explain(const uint8_t *text, size_t length, const clk_fault *fault, uint8_t *buffer, size_t buffer_length,
                                   size_t *needed);
extern uint32_t clk_router_offer(clk_router *router, uint32_t sender, uint32_t length, clk_offered *offered);
extern uint32_t clk_router_offer_many(clk_router *router, const clk_offer_of *offers, size_t offers_length, clk_offered *offered,
                                      size_t offered_length, size_t *done);
extern uint32_t clk_router_pull(clk_router *router, uint16_t device, uint64_t moment, clk_packet *packet);
extern uint32_t clk_router_pull_many(clk_router *router, uint16_t device, uint64_t moment, clk_packet *packets, size_t packets_length,
                                     size_t *given);
extern uint32_t clk_router_moment(clk_router *router, uint16_t device, uint64_t *moment);
extern uint32_t clk_router_due(clk_router *router, uint16_t device, uint64_t *moment);
extern uint32_t clk_router_left(clk_router *router, uint16_t device, uint64_t *packets);
extern uint32_t clk_router_drain(clk_router *router, uint16_t device, clk_departure *departures, size_t departures_length,
                                 uint64_t pulls, size_t *given);
extern size_t clk_router_senders(clk_router *router);
extern uint32_t clk_router_account(clk_router *router, size_t place, clk_account *account);
extern uint32_t clk_router_sender_name(clk_router *router, size_t place, uint8_t *buffer, size_t buffer_length, size_t *needed);
extern size_t clk_router_queues(clk_router *router);
extern uint32_t clk_router_queue(clk_router *router, uint16_t number, clk_queue *queue);
extern size_t clk_router_devices(clk_router *router);
extern uint32_t clk_raw_inlet_offer(clk_inlet *inlet, uint32_t length, uint64_t token, uint32_t *number);
extern uint32_t clk_raw_inlet_offer_many(clk_inlet *inlet, const clk_item *items, size_t items_length, size_t *done);
extern size_t clk_raw_inlet_room(clk_inlet *inlet);
extern void clk_raw_inlet_close(clk_inlet inlet);
extern uint32_t clk_raw_live_open(const uint8_t *text, size_t length, uint32_t room, clk_live *live, clk_fault *fault);
extern void clk_raw_live_close(clk_live live);
extern uint32_t clk_raw_live_inlet(clk_live *live, uint32_t sender, clk_inlet *inlet);
extern uint32_t clk_raw_live_take(clk_live *live, uint32_t sender, clk_taken *taken, size_t taken_length, size_t *given);
extern uint32_t clk_raw_live_take_in(clk_live *live, size_t each, clk_taken *taken, size_t taken_length, size_t *given);
extern uint32_t clk_raw_live_take_what_fits(clk_live *live, size_t each, clk_taken *taken, size_t taken_length, size_t *given);
extern uint32_t clk_raw_live_pull(clk_live *live, uint16_t device, uint64_t moment, clk_emitted *packet);
extern uint32_t clk_raw_live_pull_many(clk_live *live, uint16_t device, uint64_t moment, clk_emitted *packets, size_t packets_length,
                                       size_t *given);
extern uint32_t clk_raw_live_drain(clk_live *live, uint16_t device, clk_departed *departures, size_t departures_length, uint64_t pulls,
                                   size_t *given);
extern uint32_t clk_raw_live_ended(clk_live *live);
extern uint32_t clk_raw_live_drained(clk_live *live);
extern uint32_t clk_raw_live_reclaim(clk_live *live, uint64_t *tokens, size_t tokens_length, size_t *given);
extern uint32_t clk_raw_live_moment(clk_live *live, uint16_t device, uint64_t *moment);
extern uint32_t clk_raw_live_due(clk_live *live, uint16_t device, uint64_t *moment);
extern uint32_t clk_raw_live_left(clk_live *live, uint16_t device, uint64_t *packets);
extern size_t clk_raw_live_senders(clk_live *live);
extern uint32_t clk_raw_live_account(clk_live *live, size_t place, clk_account *account);
extern size_t clk_raw_live_queues(clk_live *live);
extern uint32_t clk_raw_live_queue(clk_live *live, uint16_t number, clk_queue *queue);
extern size_t clk_raw_live_devices(clk_live *live);
extern uint32_t clk_raw_record_offered(const clk_offered *offered, size_t offered_length, uint8_t *text, size_t text_length, size_t *used,
                                       uint32_t *lines);
extern uint32_t clk_raw_record_taken(const clk_taken *taken, size_t taken_length, uint8_t *text, size_t text_length, size_t *used,
                                     uint32_t *lines);
extern uint32_t clk_raw_record_pulls(uint16_t device, uint64_t moment, uint64_t pulls, uint8_t *text, size_t text_length, size_t *used,
                                     uint32_t *lines);
extern uint32_t clk_raw_record_drain(uint64_t moment, uint8_t *text, size_t text_length, size_t *used, uint32_t *lines);

/* How the functions below are defined: inline in each file that includes this header. An installed library has them also as exports, by
 * their names, for languages that load a library and can't call inline functions (Go, Java, LuaJIT, .NET). The file that defines these
 * exports, packaging/calls.c, defines CLK_EXPORT_CALLS before it includes this header. No other file does. */
#ifdef CLK_EXPORT_CALLS
#define CLK_API
#else
#define CLK_API static inline
#endif

/* Stands before each call whose status says that a packet was not accepted, that one was emitted, or that packets are left. A packet may be
 * lost where such a status is ignored, so compilers that can warn of it. Takes, and pulls of many, have no such mark: they also give a
 * count, without which their packets can't be read. A caller who wants no warning defines CLK_MUST_USE as nothing before the include. */
#ifndef CLK_MUST_USE
#if (defined(__cplusplus) && __cplusplus >= 201703L) || (!defined(__cplusplus) && __STDC_VERSION__ >= 202311L)
#define CLK_MUST_USE [[nodiscard]]
#elif defined(__GNUC__)
#define CLK_MUST_USE __attribute__((warn_unused_result))
#else
#define CLK_MUST_USE
#endif
#endif

/* Casts, which C++ has under names of their own. */
#ifdef __cplusplus
#define CLK_STATUS(IT) static_cast<clk_status>(IT)
#define CLK_BYTES(IT) reinterpret_cast<const uint8_t *>(IT)
#define CLK_BUFFER(IT) reinterpret_cast<uint8_t *>(IT)
#else
#define CLK_STATUS(IT) (clk_status)(IT)
#define CLK_BYTES(IT) (const uint8_t *)(IT)
#define CLK_BUFFER(IT) (uint8_t *)(IT)
#endif

/* ------------------------------------------------------------------------------------------------------------ open and close */

/* Opens a router over the tree in `text`, `length` bytes, 1,048,576 at most. The text needs no zero at its end, and may be null if `length`
 * is 0. All memory that the router will ever use is allocated here: 8 bytes for each packet that its queues can hold, and tables of its
 * elements. `fault` may be null if it isn't wanted.
 *
 * CLK_OK     `router` is the router, with empty queues, before its first pull. The caller closes it.
 * CLK_FAULT  `router` is shut, and nothing is to be closed. `fault` says why: 1 if an allocation failed, else the first fault of the text.
 * CLK_NULL   `router` is null, or `text` is null and `length` isn't 0. In the second case `router` is shut. */
CLK_API clk_status clk_open(const char *text, size_t length, clk_router *router, clk_fault *fault) {
    clk_fault unwanted = {0, 0};
    if (!router)
        return CLK_NULL;
    router->at = NULL;
    if (!text && length != 0)
        return CLK_NULL;
    return CLK_STATUS(clk_router_open(CLK_BYTES(text ? text : ""), length, router, fault ? fault : &unwanted));
}

/* Frees all that the router has, with the packets in its queues, and leaves `router` shut. A null or shut router is left as it is. */
CLK_API void clk_close(clk_router *router) {
    if (router && router->at) {
        clk_router_close(*router);
        router->at = NULL;
    }
}

/* Explains a fault that clk_open or clk_live_open had with this text, in lines of ASCII, each with a line feed:
 *
 *     2:6: there is no class 'Heap'
 *         q :: Heap(3);
 *              ^
 *     expected Sender, Queue, FrontDropQueue, PrioSched, RoundRobinSched, DRRSched, StrideSched, Shaper or ToDevice
 *
 * These are the line and the column of the fault (from 1, columns in bytes) and what is wrong; the line with a caret below the column; and
 * what was expected. Of a long line 120 bytes are shown, 80 of them before the column. A blank is shown as a space, and a byte that is no
 * printable ASCII as a question mark. A fault without a place has the first line, without line and column, and the last.
 *
 * `buffer` gets as much of it as fits into `room` bytes, and no zero behind it. `needed` is how many bytes all of it has, at most
 * CLK_MOST_EXPLANATION. For a number that no fault of clk_open has it is 0. `buffer` may be null if `room` is 0, and `text` if `length` is 0.
 * No memory is allocated.
 *
 * CLK_OK    `buffer` has all of it.
 * CLK_FULL  `buffer` has the first `room` bytes.
 * CLK_NULL  a pointer is null. */
CLK_API clk_status clk_explain(const char *text, size_t length, const clk_fault *fault, char *buffer, size_t room, size_t *needed) {
    char unused = 0;
    if (!needed)
        return CLK_NULL;
    *needed = 0;
    if ((!text && length != 0) || !fault || (!buffer && room != 0))
        return CLK_NULL;
    return CLK_STATUS(clk_router_explain(CLK_BYTES(text ? text : ""), length, fault, CLK_BUFFER(buffer ? buffer : &unused), room, needed));
}

/* ------------------------------------------------------------------------------------------------------------ offers */

/* The sender with this number offers its next packet, of `length` bytes, to its queue. The packets of a sender are numbered from 0 in the
 * order of its offers, even those that are refused.
 *
 * CLK_OK              `offered` has the packet and its outcome. A refusal is an outcome, and no failure of the call.
 * CLK_BAD_LENGTH      `length` is not from 1 to 65,535. This is tested first.
 * CLK_UNKNOWN_SENDER  no sender has this number.
 * CLK_AT_END          the sender has offered 4,294,967,295 packets.
 * CLK_SHUT, CLK_NULL
 *
 * Unless the status is CLK_OK, nothing was offered. */
CLK_MUST_USE CLK_API clk_status clk_offer(clk_router *router, uint32_t sender, uint32_t length, clk_offered *offered) {
    if (!router || !offered)
        return CLK_NULL;
    if (!router->at)
        return CLK_SHUT;
    return CLK_STATUS(clk_router_offer(router, sender, length, offered));
}

/* Offers `count` packets in the order of `offers`, as `count` calls of clk_offer do, up to the first that can't be offered. `offers` and
 * `offered` have `count` elements; both may be null if `count` is 0. `done` is how many were offered: the first `*done` elements of
 * `offered` are filled in, and the others are unchanged.
 *
 * CLK_OK              all were offered.
 * CLK_UNKNOWN_SENDER, CLK_BAD_LENGTH, CLK_AT_END  offers[*done] can't be offered, for the reason that clk_offer has. Neither it nor one
 *                     after it was offered.
 * CLK_SHUT, CLK_NULL  none was offered. */
CLK_MUST_USE CLK_API clk_status clk_offer_many(clk_router *router, const clk_offer_of *offers, size_t count, clk_offered *offered,
                                               size_t *done) {
    if (!done)
        return CLK_NULL;
    *done = 0;
    if (!router || (count != 0 && (!offers || !offered)))
        return CLK_NULL;
    if (!router->at)
        return CLK_SHUT;
    if (count == 0)
        return CLK_OK;
    return CLK_STATUS(clk_router_offer_many(router, offers, count, offered, count, done));
}

/* ------------------------------------------------------------------------------------------------------------ pulls */

/* Pulls the device once, at this moment in ticks. Devices are numbered from 0 in the order of declaration. The device's latest moment is
 * the greatest that it was pulled at so far. A pull with an earlier moment counts as one at the latest moment.
 *
 * CLK_OK              `packet` is the packet that was emitted.
 * CLK_NONE            none was emitted: nothing is left for the device, a Shaper has no token, or a DRRSched needs another pull, since a
 *                     packet is longer than its deficit. clk_left tells the first case from the others.
 * CLK_UNKNOWN_DEVICE, CLK_AT_END, CLK_SHUT, CLK_NULL  no pull was made. */
CLK_MUST_USE CLK_API clk_status clk_pull(clk_router *router, uint16_t device, uint64_t moment, clk_packet *packet) {
    if (!router || !packet)
        return CLK_NULL;
    if (!router->at)
        return CLK_SHUT;
    return CLK_STATUS(clk_router_pull(router, device, moment, packet));
}

/* Pulls the device at this moment up to `count` times, and stops after a pull that emits nothing. `packets` has `count` elements, and may
 * be null if `count` is 0. `given` is how many were emitted: the first `*given` elements of `packets` are filled in, in the order in which
 * they were emitted.
 *
 * CLK_OK              at least one was emitted, or `count` is 0.
 * CLK_NONE            the first pull emitted none.
 * CLK_UNKNOWN_DEVICE, CLK_AT_END, CLK_SHUT, CLK_NULL  no pull was made. */
CLK_API clk_status clk_pull_many(clk_router *router, uint16_t device, uint64_t moment, clk_packet *packets, size_t count,
                                 size_t *given) {
    clk_packet unused = {0, 0, 0};
    if (!given)
        return CLK_NULL;
    *given = 0;
    if (!router || (count != 0 && !packets))
        return CLK_NULL;
    if (!router->at)
        return CLK_SHUT;
    return CLK_STATUS(clk_router_pull_many(router, device, moment, packets ? packets : &unused, count, given));
}

/* The device's latest moment, in ticks: the greatest that it was pulled at so far. 0 before the first pull.
 *
 * CLK_OK  `moment` is it. CLK_UNKNOWN_DEVICE, CLK_SHUT, CLK_NULL. */
CLK_API clk_status clk_moment(const clk_router *router, uint16_t device, uint64_t *moment) {
    if (!router || !moment)
        return CLK_NULL;
    if (!router->at)
        return CLK_SHUT;
    clk_router same = *router;
    return CLK_STATUS(clk_router_moment(&same, device, moment));
}

/* The earliest moment, in ticks, at which a pull of the device could emit a packet, as things stand. It is the device's latest moment, or
 * the next tick if every packet is below a Shaper that has no token for it yet. Pulls emit nothing before, so a caller may sleep until
 * then, or until a packet is offered. A pull at that moment may still emit nothing, while a DRRSched saves up for a long packet: pull
 * again.
 *
 * CLK_OK    `moment` is it.
 * CLK_NONE  no packet is left for the device.
 * CLK_UNKNOWN_DEVICE, CLK_SHUT, CLK_NULL. */
CLK_API clk_status clk_due(const clk_router *router, uint16_t device, uint64_t *moment) {
    if (!router || !moment)
        return CLK_NULL;
    if (!router->at)
        return CLK_SHUT;
    clk_router same = *router;
    return CLK_STATUS(clk_router_due(&same, device, moment));
}

/* How many packets are left for the device: accepted by its queues, and neither evicted nor emitted. They are in its queues or held by its
 * schedulers.
 *
 * CLK_OK  `packets` is the number. CLK_UNKNOWN_DEVICE, CLK_SHUT, CLK_NULL. */
CLK_API clk_status clk_left(const clk_router *router, uint16_t device, uint64_t *packets) {
    if (!router || !packets)
        return CLK_NULL;
    if (!router->at)
        return CLK_SHUT;
    clk_router same = *router;
    return CLK_STATUS(clk_router_left(&same, device, packets));
}

/* Drains the device: pulls it one tick apart, the first time one tick after its latest moment. Stops when nothing is left for it, when
 * `pulls` pulls were made, or when `count` packets were emitted. A further call goes on from there, so a caller can drain in pieces.
 * `departures` has `count` elements, and may be null if `count` is 0. `given` is how many packets were emitted: the first `*given` elements
 * are filled in.
 *
 * CLK_OK              nothing is left for the device. If nothing was left before, no pull was made.
 * CLK_NONE            some are left: `pulls` or `count` was reached.
 * CLK_AT_END          the moment of the next pull would be 2^44, or the device was pulled 2^63 times. `given` packets were emitted before.
 * CLK_UNKNOWN_DEVICE, CLK_SHUT, CLK_NULL  no pull was made. */
CLK_MUST_USE CLK_API clk_status clk_drain(clk_router *router, uint16_t device, clk_departure *departures, size_t count, uint64_t pulls,
                                          size_t *given) {
    clk_departure unused = {0, {0, 0, 0}};
    if (!given)
        return CLK_NULL;
    *given = 0;
    if (!router || (count != 0 && !departures))
        return CLK_NULL;
    if (!router->at)
        return CLK_SHUT;
    return CLK_STATUS(clk_router_drain(router, device, departures ? departures : &unused, count, pulls, given));
}

/* ------------------------------------------------------------------------------------------------------------ state */

/* How many senders the tree has, or 0 if the router is null or shut. */
CLK_API size_t clk_senders(const clk_router *router) {
    clk_router same = CLK_NO_ROUTER;
    if (router)
        same = *router;
    return same.at ? clk_router_senders(&same) : 0;
}

/* How many queues the tree has, or 0 if the router is null or shut. */
CLK_API size_t clk_queues(const clk_router *router) {
    clk_router same = CLK_NO_ROUTER;
    if (router)
        same = *router;
    return same.at ? clk_router_queues(&same) : 0;
}

/* How many devices the tree has, one at least, or 0 if the router is null or shut. */
CLK_API size_t clk_devices(const clk_router *router) {
    clk_router same = CLK_NO_ROUTER;
    if (router)
        same = *router;
    return same.at ? clk_router_devices(&same) : 0;
}

/* The totals of all packets that the sender at this place offered. Places go from 0 to clk_senders - 1, in the order of the senders'
 * numbers.
 *
 * CLK_OK  `account` has them. CLK_UNKNOWN_SENDER (no such place), CLK_SHUT, CLK_NULL. */
CLK_API clk_status clk_account_at(const clk_router *router, size_t place, clk_account *account) {
    if (!router || !account)
        return CLK_NULL;
    if (!router->at)
        return CLK_SHUT;
    clk_router same = *router;
    return CLK_STATUS(clk_router_account(&same, place, account));
}

/* The name of the sender at this place: that of its element in the tree's text. `buffer` has `room` bytes. Places are those of
 * clk_account_at.
 *
 * CLK_OK    `buffer` begins with the name, which has `*needed` bytes. No zero is written behind it.
 * CLK_FULL  `room` is below `*needed`. Nothing was written.
 * CLK_UNKNOWN_SENDER (no such place), CLK_SHUT, CLK_NULL, all with `*needed` 0 if `needed` isn't null. */
CLK_API clk_status clk_sender_name(const clk_router *router, size_t place, char *buffer, size_t room, size_t *needed) {
    char unused = 0;
    if (!needed)
        return CLK_NULL;
    *needed = 0;
    if (!router || (room != 0 && !buffer))
        return CLK_NULL;
    if (!router->at)
        return CLK_SHUT;
    clk_router same = *router;
    return CLK_STATUS(clk_router_sender_name(&same, place, CLK_BUFFER(buffer ? buffer : &unused), buffer ? room : 0, needed));
}

/* The queue with this number, from 0 to clk_queues - 1 in the order of declaration.
 *
 * CLK_OK  `queue` is the queue. CLK_UNKNOWN_QUEUE, CLK_SHUT, CLK_NULL. */
CLK_API clk_status clk_queue_at(const clk_router *router, uint16_t number, clk_queue *queue) {
    if (!router || !queue)
        return CLK_NULL;
    if (!router->at)
        return CLK_SHUT;
    clk_router same = *router;
    return CLK_STATUS(clk_router_queue(&same, number, queue));
}

/* ------------------------------------------------------------------------------------------------------------ inlets
 *
 * An inlet carries the packets of one sender to a router that runs on another thread. It is a ring with room for a fixed number of packets.
 * No call on an inlet waits, allocates memory or takes a lock.
 *
 *     while ((buffer = next_packet()) != NULL)
 *         while (clk_inlet_offer(&inlet, buffer->length, (uint64_t)(uintptr_t)buffer, NULL) == CLK_FULL)
 *             pause_for_a_while();
 *     clk_inlet_close(&inlet);
 *
 * TOKENS. A token is any value of 64 bits: a pointer, an index, or 0. The library never reads what it points to, and returns it with the
 * packet. The thread that takes a packet sees all that the sender wrote before it offered the packet.
 *
 * BACK PRESSURE. CLK_FULL means that the router's thread is behind. Pause before the next try: sleep, or do other work. A sender that tries
 * again at once reads memory that the router's thread writes, and slows that thread down.
 *
 * WHO OWNS WHAT. Whoever holds an inlet closes it, once. A clk_inlet may be copied, as a pointer may: the copies are one inlet. Once a
 * packet is accepted, what its token points to belongs to the router's side. The sender keeps it if the packet is not accepted. An inlet
 * may outlive its router. Then nobody takes packets: offers return CLK_OK until the ring is full, and CLK_FULL from then on.
 *
 * WHAT THE CALLER OWES. No call can test the following, so the caller has to keep it:
 *
 *   - Calls on one inlet come one after the other. Calls on other inlets, and on the router, may run at the same time.
 *   - An inlet may move to another thread. The hand-over is ordered: by the start or the join of a thread, by a lock of the caller's, or by
 *     a sequentially consistent atomic operation.
 *   - After an inlet is closed, no copy of its clk_inlet is used.
 *   - Every inlet is closed in the end, even if its sender never offered a packet. The memory of one that is never closed is lost, and the
 *     router never learns that its sender has ended. */

/* Offers the sender's next packet, of `length` bytes, with a token. `number` may be null if it isn't wanted.
 *
 * CLK_OK          the inlet accepted the packet. `number` is its number: how many packets the inlet accepted before it.
 * CLK_FULL        there is no room now. Offer the packet again later.
 * CLK_BAD_LENGTH  `length` is not from 1 to 65,535. This is tested first.
 * CLK_AT_END      the inlet has accepted 4,294,967,295 packets, and accepts no more.
 * CLK_SHUT        the inlet was closed.
 * CLK_NULL        `inlet` is null.
 *
 * If the status isn't CLK_OK, nothing was sent, and `number` is unchanged. */
CLK_MUST_USE CLK_API clk_status clk_inlet_offer(clk_inlet *inlet, uint32_t length, uint64_t token, uint32_t *number) {
    uint32_t unwanted = 0;
    if (!inlet)
        return CLK_NULL;
    if (!inlet->at)
        return CLK_SHUT;
    return CLK_STATUS(clk_raw_inlet_offer(inlet, length, token, number ? number : &unwanted));
}

/* Offers `count` packets in the order of `items`, up to the first that isn't accepted. `items` has `count` elements, and may be null where
 * that is 0. `done` is how many were accepted: the first `*done` elements of `items`. Their numbers follow one another. One call takes less
 * time than as many calls of clk_inlet_offer. It publishes the packets that fit at that moment together: the router's thread sees all of
 * them or none.
 *
 * CLK_OK                                all were accepted.
 * CLK_FULL, CLK_BAD_LENGTH, CLK_AT_END  items[*done] was not accepted, for the reason that clk_inlet_offer has, and none after it was
 *                                       offered.
 * CLK_SHUT, CLK_NULL                    none was offered. */
CLK_MUST_USE CLK_API clk_status clk_inlet_offer_many(clk_inlet *inlet, const clk_item *items, size_t count, size_t *done) {
    if (!done)
        return CLK_NULL;
    *done = 0;
    if (!inlet || (count != 0 && !items))
        return CLK_NULL;
    if (!inlet->at)
        return CLK_SHUT;
    if (count == 0)
        return CLK_OK;
    return CLK_STATUS(clk_raw_inlet_offer_many(inlet, items, count, done));
}

/* How many packets are sure to fit: none of the next `*room` offers returns CLK_FULL. More may fit a moment later, since the router's
 * thread takes packets meanwhile. It is 0 once the inlet has accepted 4,294,967,295 packets.
 *
 * CLK_OK  `room` is the number. CLK_SHUT, CLK_NULL. */
CLK_API clk_status clk_inlet_room(clk_inlet *inlet, size_t *room) {
    if (!inlet || !room)
        return CLK_NULL;
    if (!inlet->at)
        return CLK_SHUT;
    *room = clk_raw_inlet_room(inlet);
    return CLK_OK;
}

/* Ends the sender's packets, frees the inlet and leaves `inlet` shut. The router's thread still takes the packets that are in the ring, and
 * then learns that no more follow. Closing never waits. An open inlet can always be closed: even a full ring has a place for the end.
 *
 * CLK_OK    the inlet is closed.
 * CLK_SHUT  it was closed before.
 * CLK_NULL  `inlet` is null. */
CLK_API clk_status clk_inlet_close(clk_inlet *inlet) {
    if (!inlet)
        return CLK_NULL;
    if (!inlet->at)
        return CLK_SHUT;
    clk_raw_inlet_close(*inlet);
    inlet->at = NULL;
    return CLK_OK;
}

/* ------------------------------------------------------------------------------------------------------------ live routers
 *
 * A live router is a router whose senders offer from threads of their own. Each sender has an inlet. One thread owns the live router: it
 * takes packets from the inlets, offers them to the queues, and pulls the devices. Each packet travels with its token.
 *
 *     clk_live live;
 *     clk_inlet inlet;
 *     if (clk_live_open(text, strlen(text), 1024, &live, &fault) != CLK_OK)
 *         return 1;
 *     clk_live_inlet(&live, 0, &inlet);                                            // for each sender
 *     start_thread(sender_0, inlet);                                               // which closes the inlet at its end
 *     while (clk_live_ended(&live) != CLK_OK || clk_live_drained(&live) != CLK_OK) {
 *         clk_live_take_in(&live, 16, taken, 64, &given);
 *         for (size_t i = 0; i < given; i++)
 *             drop_lost(&taken[i]);                                                // refused: its token; evicted: evicted_token
 *         while (clk_live_pull(&live, 0, now(), &emitted) == CLK_OK)
 *             transmit((struct buffer *)(uintptr_t)emitted.token);
 *     }
 *     clk_live_close(&live);
 *
 * TOKENS. A token comes back once: from a pull that emits its packet, from a take that refused the packet, from a take that evicted it for
 * another, or from clk_live_reclaim.
 *
 * WHEN A SENDER IS FASTER than the owner takes, its inlet fills up, and its offers return CLK_FULL. No packet is lost there. With
 * clk_live_take and clk_live_take_in full queues refuse or evict, as Click's do. With clk_live_take_what_fits a full queue holds back its
 * senders, and no packet is refused or evicted.
 *
 * WHEN AN INLET IS NEVER CLOSED, or was never asked for, clk_live_ended never returns CLK_OK. All other calls go on.
 *
 * WHEN THE OWNER CLOSES FIRST, nothing tells the senders. Their inlets stay usable until they are full, and then return CLK_FULL. The
 * holder of each still closes it. Tokens that wait in the inlets don't come back. So close the inlets first, take what is in them, and then
 * close the router.
 *
 * No call waits, and no call but clk_live_open allocates memory. clk_live_take_in, clk_live_take_what_fits and clk_live_ended may look at
 * each sender, clk_live_drained at each device, and clk_live_due at what stands below its device: at 256 elements at most.
 *
 * SLEEPING. The library wakes nobody. An owner that finds nothing may pause, or sleep until a sender wakes it; the caller writes that part.
 * If the owner sleeps, keep this order, or a wake-up can be lost:
 *
 *   - The owner sets an atomic flag of the caller's, executes a sequentially consistent fence, takes from all inlets once more, and asks
 *     clk_live_ended. If nothing came, it sleeps until it is woken.
 *   - A sender offers a packet or closes its inlet, executes a sequentially consistent fence, and reads the flag. If the flag is set, the
 *     sender clears it and wakes the owner.
 *
 * So the owner sees the packet, or the sender sees the flag. While packets are left inside (clk_live_drained isn't CLK_OK), an owner sleeps
 * only until its next pull: no sender wakes it for these packets. clk_live_due has the earliest moment at which a pull can emit one.
 *
 * A sender that sleeps while its inlet is full keeps an order of the same kind. It sets a flag of its own, offers once more, and then
 * sleeps; the owner takes, and then reads that flag. The repository has both in examples/threads/waiter.h, with a condition variable and
 * with an eventfd.
 *
 * WHAT THE CALLER OWES. No call can test the following, so the caller has to keep it:
 *
 *   - Calls on one live router come one after the other. They may come from several threads, if each call happens before the next: by a
 *     lock of the caller's, by the start or the join of a thread, or by a sequentially consistent atomic operation. Calls on its inlets may
 *     run at the same time.
 *   - A live router that was closed isn't used again through a copy of its clk_live.
 *   - A clk_live is filled by clk_live_open or clk_live_close, or is CLK_NO_LIVE, before another call gets it. A live router that is open
 *     isn't opened over: its memory would leak. Likewise clk_live_inlet doesn't get a clk_inlet that is open. */

/* Opens a live router over the tree in `text`, `length` bytes, with an inlet for each sender that has room for `room` packets, from 1 to
 * CLK_MOST_ROOM. All memory that the router and its inlets will ever use is allocated here: 16 bytes for each packet that an inlet has room
 * for, and 16 for each that the queues can hold. `fault` may be null if it isn't wanted.
 *
 * CLK_OK        `live` is the router. The caller closes it.
 * CLK_BAD_ROOM  `room` is out of range.
 * CLK_FAULT     `fault` says why: 1 if an allocation failed, else the first fault of the text.
 * CLK_NULL      `live` is null, or `text` is null and `length` isn't 0.
 *
 * Unless the status is CLK_OK, `live` is shut (if it isn't null), and nothing is to be closed. */
CLK_API clk_status clk_live_open(const char *text, size_t length, uint32_t room, clk_live *live, clk_fault *fault) {
    clk_fault unwanted = {0, 0};
    if (!live)
        return CLK_NULL;
    live->at = NULL;
    if (!text && length != 0)
        return CLK_NULL;
    return CLK_STATUS(clk_raw_live_open(CLK_BYTES(text ? text : ""), length, room, live, fault ? fault : &unwanted));
}

/* Frees all that the router has, with the inlets that were not handed out, and leaves `live` shut. A null or a shut router is left as it
 * is. The tokens of packets inside don't come back: clk_live_reclaim returns them before. */
CLK_API void clk_live_close(clk_live *live) {
    if (live && live->at) {
        clk_raw_live_close(*live);
        live->at = NULL;
    }
}

/* Hands out the inlet of the sender with this number, once. It may be used from another thread, and is closed by clk_inlet_close.
 *
 * CLK_OK  `inlet` is the inlet.
 * CLK_UNKNOWN_SENDER, CLK_HANDED_OUT, CLK_RECLAIMED, CLK_SHUT, CLK_NULL  there is none, and `inlet` is shut (if it isn't null). */
CLK_API clk_status clk_live_inlet(clk_live *live, uint32_t sender, clk_inlet *inlet) {
    if (!inlet)
        return CLK_NULL;
    inlet->at = NULL;
    if (!live)
        return CLK_NULL;
    if (!live->at)
        return CLK_SHUT;
    return CLK_STATUS(clk_raw_live_inlet(live, sender, inlet));
}

/* Takes packets that wait in the inlet of the sender with this number, and offers each to the sender's queue, in order. `taken` has `count`
 * elements, and may be null if `count` is 0. One call takes at most `count` packets, and at most CLK_MOST_TAKEN. `given` is how many were
 * taken: the first `*given` elements are filled in. If `given` is below both, the call saw no more in the inlet.
 *
 * CLK_OK    at least one was taken, or `count` is 0.
 * CLK_NONE  none waits there.
 * CLK_UNKNOWN_SENDER, CLK_RECLAIMED, CLK_SHUT, CLK_NULL  none was taken. */
CLK_API clk_status clk_live_take(clk_live *live, uint32_t sender, clk_taken *taken, size_t count, size_t *given) {
    clk_taken unused = {{0, 0, 0}, 0, {0, 0, 0}, 0, 0};
    if (!given)
        return CLK_NULL;
    *given = 0;
    if (!live || (count != 0 && !taken))
        return CLK_NULL;
    if (!live->at)
        return CLK_SHUT;
    return CLK_STATUS(clk_raw_live_take(live, sender, taken ? taken : &unused, count, given));
}

/* Takes packets in one round over all senders, at most `each` from each, and offers each packet to its sender's queue. Its arguments are as
 * for clk_live_take, and so is the most that one call takes. If the call takes that many, the round ends early, and the next one starts
 * after the sender of its last packet: so each sender has its turn. Otherwise, if this one took a packet, the next one starts one sender
 * later. So none of the senders of a queue is the first in each round, but which of them gets a free place of a full queue depends on what
 * else is taken.
 *
 * CLK_OK    at least one was taken, or `count` is 0.
 * CLK_NONE  none was taken.
 * CLK_RECLAIMED, CLK_SHUT, CLK_NULL  none was taken. */
CLK_API clk_status clk_live_take_in(clk_live *live, size_t each, clk_taken *taken, size_t count, size_t *given) {
    clk_taken unused = {{0, 0, 0}, 0, {0, 0, 0}, 0, 0};
    if (!given)
        return CLK_NULL;
    *given = 0;
    if (!live || (count != 0 && !taken))
        return CLK_NULL;
    if (!live->at)
        return CLK_SHUT;
    return CLK_STATUS(clk_raw_live_take_in(live, each, taken ? taken : &unused, count, given));
}

/* Does what clk_live_take_in does, but leaves a packet in its inlet while its queue is full. So each packet that is taken is accepted, and
 * none is evicted. */
CLK_API clk_status clk_live_take_what_fits(clk_live *live, size_t each, clk_taken *taken, size_t count, size_t *given) {
    clk_taken unused = {{0, 0, 0}, 0, {0, 0, 0}, 0, 0};
    if (!given)
        return CLK_NULL;
    *given = 0;
    if (!live || (count != 0 && !taken))
        return CLK_NULL;
    if (!live->at)
        return CLK_SHUT;
    return CLK_STATUS(clk_raw_live_take_what_fits(live, each, taken ? taken : &unused, count, given));
}

/* Pulls the device once, at this moment in ticks, as clk_pull does. The packet that is emitted is filled in with its token.
 *
 * CLK_OK    `packet` is the packet that was emitted.
 * CLK_NONE  none was emitted.
 * CLK_UNKNOWN_DEVICE, CLK_AT_END, CLK_RECLAIMED, CLK_SHUT, CLK_NULL  no pull was made. */
CLK_MUST_USE CLK_API clk_status clk_live_pull(clk_live *live, uint16_t device, uint64_t moment, clk_emitted *packet) {
    if (!live || !packet)
        return CLK_NULL;
    if (!live->at)
        return CLK_SHUT;
    return CLK_STATUS(clk_raw_live_pull(live, device, moment, packet));
}

/* Pulls the device at this moment up to `count` times, as clk_pull_many does, with tokens. */
CLK_API clk_status clk_live_pull_many(clk_live *live, uint16_t device, uint64_t moment, clk_emitted *packets, size_t count,
                                      size_t *given) {
    clk_emitted unused = {{0, 0, 0}, 0};
    if (!given)
        return CLK_NULL;
    *given = 0;
    if (!live || (count != 0 && !packets))
        return CLK_NULL;
    if (!live->at)
        return CLK_SHUT;
    return CLK_STATUS(clk_raw_live_pull_many(live, device, moment, packets ? packets : &unused, count, given));
}

/* Drains the device as clk_drain does, with tokens: pulls it one tick apart while packets are left for it. Packets that wait in the inlets
 * are not drained: take them first. */
CLK_MUST_USE CLK_API clk_status clk_live_drain(clk_live *live, uint16_t device, clk_departed *departures, size_t count, uint64_t pulls,
                                               size_t *given) {
    clk_departed unused = {0, {0, 0, 0}, 0};
    if (!given)
        return CLK_NULL;
    *given = 0;
    if (!live || (count != 0 && !departures))
        return CLK_NULL;
    if (!live->at)
        return CLK_SHUT;
    return CLK_STATUS(clk_raw_live_drain(live, device, departures ? departures : &unused, count, pulls, given));
}

/* Whether every inlet was closed, and every packet that was ever accepted by one was taken. A take finds out that an inlet was closed: take
 * before asking. (clk_live_take_what_fits finds it out once the sender's queue has room.)
 *
 * CLK_OK    yes. It stays so: no more packets come.
 * CLK_NONE  not yet.
 * CLK_RECLAIMED, CLK_SHUT, CLK_NULL. */
CLK_API clk_status clk_live_ended(const clk_live *live) {
    if (!live)
        return CLK_NULL;
    if (!live->at)
        return CLK_SHUT;
    clk_live same = *live;
    return CLK_STATUS(clk_raw_live_ended(&same));
}

/* Whether no packet is left inside: not in a queue, and not held by a scheduler. Then each packet that was taken was refused, evicted or
 * emitted, once.
 *
 * CLK_OK    yes.
 * CLK_NONE  packets are left.
 * CLK_RECLAIMED, CLK_SHUT, CLK_NULL. */
CLK_API clk_status clk_live_drained(const clk_live *live) {
    if (!live)
        return CLK_NULL;
    if (!live->at)
        return CLK_SHUT;
    clk_live same = *live;
    return CLK_STATUS(clk_raw_live_drained(&same));
}

/* Gives up the router, and fills in the tokens of the packets that are inside it, queue by queue. In each queue the packet comes first that
 * would have been emitted first. It fills in `count` tokens at most, and goes on when it is called again. `given` is how many it filled in.
 * After the first call all calls on the router but this and clk_live_close return CLK_RECLAIMED, or a count of 0. Tokens that wait in the
 * inlets don't come back: close the inlets and take from them first.
 *
 * CLK_OK    there are no more tokens, and `given` is below `count`.
 * CLK_NONE  all `count` tokens are filled in: call again.
 * CLK_SHUT, CLK_NULL  nothing was given up. */
CLK_MUST_USE CLK_API clk_status clk_live_reclaim(clk_live *live, uint64_t *tokens, size_t count, size_t *given) {
    uint64_t unused = 0;
    if (!given)
        return CLK_NULL;
    *given = 0;
    if (!live || (count != 0 && !tokens))
        return CLK_NULL;
    if (!live->at)
        return CLK_SHUT;
    return CLK_STATUS(clk_raw_live_reclaim(live, tokens ? tokens : &unused, count, given));
}

/* The device's latest moment, in ticks: the greatest that it was pulled at so far. 0 before the first pull.
 *
 * CLK_OK  `moment` is it. CLK_UNKNOWN_DEVICE, CLK_RECLAIMED, CLK_SHUT, CLK_NULL. */
CLK_API clk_status clk_live_moment(const clk_live *live, uint16_t device, uint64_t *moment) {
    if (!live || !moment)
        return CLK_NULL;
    if (!live->at)
        return CLK_SHUT;
    clk_live same = *live;
    return CLK_STATUS(clk_raw_live_moment(&same, device, moment));
}

/* The earliest moment, in ticks, at which a pull of the device could emit a packet, as clk_due has it. Packets that wait in the inlets
 * don't count: take them first.
 *
 * CLK_OK    `moment` is it.
 * CLK_NONE  no packet is left for the device inside the router.
 * CLK_UNKNOWN_DEVICE, CLK_RECLAIMED, CLK_SHUT, CLK_NULL. */
CLK_API clk_status clk_live_due(const clk_live *live, uint16_t device, uint64_t *moment) {
    if (!live || !moment)
        return CLK_NULL;
    if (!live->at)
        return CLK_SHUT;
    clk_live same = *live;
    return CLK_STATUS(clk_raw_live_due(&same, device, moment));
}

/* How many packets are left for the device inside the router. Packets that wait in the inlets don't count.
 *
 * CLK_OK  `packets` is the number. CLK_UNKNOWN_DEVICE, CLK_RECLAIMED, CLK_SHUT, CLK_NULL. */
CLK_API clk_status clk_live_left(const clk_live *live, uint16_t device, uint64_t *packets) {
    if (!live || !packets)
        return CLK_NULL;
    if (!live->at)
        return CLK_SHUT;
    clk_live same = *live;
    return CLK_STATUS(clk_raw_live_left(&same, device, packets));
}

/* How many senders the tree has, or 0 if the router is null, shut or reclaimed. */
CLK_API size_t clk_live_senders(const clk_live *live) {
    clk_live same = CLK_NO_LIVE;
    if (live)
        same = *live;
    return same.at ? clk_raw_live_senders(&same) : 0;
}

/* How many queues the tree has, or 0 if the router is null, shut or reclaimed. */
CLK_API size_t clk_live_queues(const clk_live *live) {
    clk_live same = CLK_NO_LIVE;
    if (live)
        same = *live;
    return same.at ? clk_raw_live_queues(&same) : 0;
}

/* How many devices the tree has, or 0 if the router is null, shut or reclaimed. */
CLK_API size_t clk_live_devices(const clk_live *live) {
    clk_live same = CLK_NO_LIVE;
    if (live)
        same = *live;
    return same.at ? clk_raw_live_devices(&same) : 0;
}

/* The totals of all packets that were taken from the sender at this place. Places go from 0 to clk_live_senders - 1, in the order of the
 * senders' numbers.
 *
 * CLK_OK  `account` has them. CLK_UNKNOWN_SENDER (no such place), CLK_RECLAIMED, CLK_SHUT, CLK_NULL. */
CLK_API clk_status clk_live_account_at(const clk_live *live, size_t place, clk_account *account) {
    if (!live || !account)
        return CLK_NULL;
    if (!live->at)
        return CLK_SHUT;
    clk_live same = *live;
    return CLK_STATUS(clk_raw_live_account(&same, place, account));
}

/* The queue with this number, from 0 to clk_live_queues - 1 in the order of declaration.
 *
 * CLK_OK  `queue` is the queue. CLK_UNKNOWN_QUEUE, CLK_RECLAIMED, CLK_SHUT, CLK_NULL. */
CLK_API clk_status clk_live_queue_at(const clk_live *live, uint16_t number, clk_queue *queue) {
    if (!live || !queue)
        return CLK_NULL;
    if (!live->at)
        return CLK_SHUT;
    clk_live same = *live;
    return CLK_STATUS(clk_raw_live_queue(&same, number, queue));
}

/* ------------------------------------------------------------------------------------------------------------ records
 *
 * A record is the script of what a router did: `clickpull script TREE RECORD` does the same again, packet for packet, on one thread. So a
 * threaded program that failed once can be looked at as often as one likes. These calls add lines to a record. They need no router, and
 * serve a clk_router and a clk_live alike.
 *
 *     char buffer[8192];
 *     clk_record record = {buffer, sizeof buffer, 0, 0};
 *     clk_live_take_in(&live, 16, taken, 64, &given);
 *     clk_record_taken(&record, taken, given);
 *     clk_live_pull_many(&live, 0, moment, emitted, 32, &given);
 *     clk_record_pulls(&record, 0, moment, given < 32 ? given + 1 : given);
 *     fwrite(record.text, 1, record.used, file);
 *     record.used = 0;
 *
 * A record means what happened if it has
 *
 *   - a line for each packet that was offered or taken, a refused one too (of clk_offer_many, the first `done`; a call that returned an
 *     error has no line),
 *   - and for each pull that was made, one that emitted nothing too, with the moment that was handed in. clk_pull_many and
 *     clk_live_pull_many made `given` pulls, and one more if `given` is below `count`. clk_drain and clk_live_drain made one pull at each
 *     moment from one tick after the device's latest on, up to its latest moment then,
 *   - in the order of the calls on the router.
 *
 * If all devices were drained at the end, by rising number and each until nothing was left, one line stands for these pulls:
 * clk_record_drain(&record, 0). It also has `clickpull script` print the account of each sender.
 *
 * Each call adds all of its lines or none. What it returns:
 *
 * CLK_OK      the lines were added: `used` and `lines` grew.
 * CLK_FULL    the buffer has no room for them. Write out what is used, set `used` to 0, and call again; CLK_MOST_LINE bytes for each line
 *             are always enough. Bytes behind `used` may have changed.
 * CLK_AT_END  the moment is 2^40 ticks or more, or the record would have more than CLK_MOST_LINES lines. A script may have neither.
 * CLK_NULL    a pointer is null.
 *
 * Unless it is CLK_OK, `used` and `lines` are as before. No call allocates memory. */

/* Adds the lines of `count` packets that were offered, as clk_offer and clk_offer_many filled them in. `offered` may be null where `count` is
 * 0. Also returns CLK_BAD_LENGTH, if a packet's length is 0: it was never offered. */
CLK_API clk_status clk_record_offered(clk_record *record, const clk_offered *offered, size_t count) {
    clk_offered unused = {{0, 0, 0}, {0, 0, 0}, 0};
    if (!record || !record->text || (count != 0 && !offered))
        return CLK_NULL;
    return CLK_STATUS(clk_raw_record_offered(offered ? offered : &unused, count, CLK_BUFFER(record->text), record->room, &record->used,
                                             &record->lines));
}

/* Adds the lines of `count` packets that were taken, as clk_live_take, clk_live_take_in and clk_live_take_what_fits filled them in. `taken`
 * may be null where `count` is 0. Also returns CLK_BAD_LENGTH, if a packet's length is 0: it was never taken. */
CLK_API clk_status clk_record_taken(clk_record *record, const clk_taken *taken, size_t count) {
    clk_taken unused = {{0, 0, 0}, 0, {0, 0, 0}, 0, 0};
    if (!record || !record->text || (count != 0 && !taken))
        return CLK_NULL;
    return CLK_STATUS(clk_raw_record_taken(taken ? taken : &unused, count, CLK_BUFFER(record->text), record->room, &record->used,
                                           &record->lines));
}

/* Adds the lines of `pulls` pulls of the device, all at this moment, in ticks: the one that was handed in, even if a later one counted. */
CLK_API clk_status clk_record_pulls(clk_record *record, uint16_t device, uint64_t moment, uint64_t pulls) {
    if (!record || !record->text)
        return CLK_NULL;
    return CLK_STATUS(clk_raw_record_pulls(device, moment, pulls, CLK_BUFFER(record->text), record->room, &record->used, &record->lines));
}

/* Adds the line of the drain of all devices that ends a record. Its pulls begin one tick after this moment, in ticks, or after the device's
 * latest one, whichever is later: 0 stands for drains by clk_drain and clk_live_drain. No line may follow. */
CLK_API clk_status clk_record_drain(clk_record *record, uint64_t moment) {
    if (!record || !record->text)
        return CLK_NULL;
    return CLK_STATUS(clk_raw_record_drain(moment, CLK_BUFFER(record->text), record->room, &record->used, &record->lines));
}

/* ------------------------------------------------------------------------------------------------------------ names */

/* The name of a fault that clk_open and clk_live_open can have, as `clickpull` prints it, and "" for any other number. */
CLK_API const char *clk_fault_name(uint32_t number) {
    switch (number) {
    case 1:
        return "Memory";
    case 2:
        return "BadText";
    case 3:
        return "UnknownClass";
    case 4:
        return "BadArgument";
    case 5:
        return "NameTwice";
    case 6:
        return "UnknownName";
    case 7:
        return "BadPort";
    case 8:
        return "PortTwice";
    case 9:
        return "PortMissing";
    case 10:
        return "WrongKind";
    case 11:
        return "NoDevice";
    case 13:
        return "NotATree";
    case 18:
        return "TooLarge";
    default:
        return "";
    }
}

/* What a status means, in a few words of English. */
CLK_API const char *clk_status_text(clk_status status) {
    switch (status) {
    case CLK_OK:
        return "done";
    case CLK_NONE:
        return "no packet";
    case CLK_SHUT:
        return "the router or the inlet is shut";
    case CLK_NULL:
        return "a pointer is null";
    case CLK_UNKNOWN_SENDER:
        return "there is no such sender";
    case CLK_UNKNOWN_DEVICE:
        return "there is no such device";
    case CLK_BAD_LENGTH:
        return "the length of a packet is not from 1 to 65,535";
    case CLK_AT_END:
        return "numbers or moments are at their end";
    case CLK_UNKNOWN_QUEUE:
        return "there is no such queue";
    case CLK_FAULT:
        return "the text makes no router, or memory was refused";
    case CLK_FULL:
        return "there is no room now";
    case CLK_BAD_ROOM:
        return "the room of inlets is not from 1 to 16,777,216";
    case CLK_HANDED_OUT:
        return "the inlet was handed out before";
    case CLK_RECLAIMED:
        return "the tokens of the router were reclaimed";
    }
    return "no answer of this library";
}

/* ------------------------------------------------------------------------------------------------------------ packets of your own
 *
 * Of a packet the library carries sender, number and length. The caller keeps the rest (a buffer, a request, a job) in a list for each
 * sender, by these three rules:
 *
 *   - Packets of one sender are emitted in the order in which it offered them. So the packet that a pull emits of sender S stands at the
 *     front of S's list: take it from there. No search is needed, and no table by number.
 *   - A packet that is refused never goes into the list. One that is accepted, whether or not it evicts another, goes to its back.
 *   - A packet that is evicted is the first that its queue holds. In its sender's list only packets that schedulers hold stand before
 *     it: they left the queue earlier, and will still be emitted. A DRRSched holds at most one packet for each of its inputs. So at most
 *     as many packets stand before it as there are DRRScheds on the path from the queue to the device. Compare numbers from the front,
 *     and take out the one that matches.
 *
 * In one offer, first take out `offered.evicted` if the outcome is CLK_EVICTED, then put the new packet at the back. The two may be of
 * different senders.
 *
 * clickpull.hpp (clickpull::Carrier) and the Python module (clickpull.Carrier) do this: callers offer and pull values of their own. */

#ifdef __cplusplus
} /* extern "C" */
#define CLK_ASSERT static_assert
#else
#define CLK_ASSERT _Static_assert
#endif

/* The sizes that the library uses. */
CLK_ASSERT(sizeof(clk_router) == sizeof(void *), "clk_router is a pointer");
CLK_ASSERT(sizeof(clk_fault) == 8, "clk_fault has 8 bytes");
CLK_ASSERT(sizeof(clk_packet) == 8, "clk_packet has 8 bytes");
CLK_ASSERT(sizeof(clk_offered) == 20, "clk_offered has 20 bytes");
CLK_ASSERT(sizeof(clk_offer_of) == 8, "clk_offer_of has 8 bytes");
CLK_ASSERT(sizeof(clk_departure) == 16, "clk_departure has 16 bytes");
CLK_ASSERT(sizeof(clk_total) == 16, "clk_total has 16 bytes");
CLK_ASSERT(sizeof(clk_account) == 72, "clk_account has 72 bytes");
CLK_ASSERT(sizeof(clk_queue) == 24, "clk_queue has 24 bytes");
CLK_ASSERT(sizeof(clk_inlet) == sizeof(void *), "clk_inlet is a pointer");
CLK_ASSERT(sizeof(clk_item) == 16, "clk_item has 16 bytes");
CLK_ASSERT(sizeof(clk_live) == sizeof(void *), "clk_live is a pointer");
CLK_ASSERT(sizeof(clk_taken) == 40, "clk_taken has 40 bytes");
CLK_ASSERT(sizeof(clk_emitted) == 16, "clk_emitted has 16 bytes");
CLK_ASSERT(sizeof(clk_departed) == 24, "clk_departed has 24 bytes");
#undef CLK_ASSERT
#undef CLK_API
#undef CLK_STATUS
#undef CLK_BYTES
#undef CLK_BUFFER

#endif
