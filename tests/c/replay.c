/* Runs a script over a tree through the library, and prints what `clickpull script TREE SCRIPT` prints: replay TREE SCRIPT [RECORD]
 *
 * With RECORD it also writes the record of what it does, a script that says the same as SCRIPT. It stands outside what is proved: it is
 * there so that tests can compare the two. A script has to be right; what is wrong in it, or in the tree, ends it with status 1 and a line
 * on standard error. */
#include "recording.h"

#include <inttypes.h>
#include <stdio.h>
#include <stdlib.h>
#include <string.h>

/* A closing is asked for in pieces, of so many packets and so many pulls. */
enum { PIECE = 3, PULLS = 7 };

static void stop(const char *what) {
    fprintf(stderr, "replay: %s\n", what);
    exit(1);
}

static void need(clk_status status) {
    if (status != CLK_OK)
        stop(clk_status_text(status));
}

/* All that is in a file, with a zero behind it. */
static char *text_of(const char *path, size_t *length) {
    FILE *file = fopen(path, "rb");
    size_t room = 4096;
    char *text = malloc(room);
    *length = 0;
    if (!file || !text)
        stop("a file can't be read");
    for (size_t got; (got = fread(text + *length, 1, room - *length - 1, file)) > 0;) {
        *length += got;
        if (room - *length == 1 && !(text = realloc(text, room *= 2)))
            stop("no memory");
    }
    fclose(file);
    text[*length] = 0;
    return text;
}

/* Where there are several devices, the line of a pull names its device. */
static void print_pull(const clk_router *router, uint64_t moment, unsigned device) {
    if (clk_devices(router) > 1)
        printf("pull %" PRIu64 " %u: ", moment, device);
    else
        printf("pull %" PRIu64 ": ", moment);
}

static void print_packet(clk_packet packet) {
    printf("%u#%u %u", packet.sender, packet.number, packet.length);
}

static void send(clk_router *router, unsigned sender, unsigned length) {
    clk_offered offered;
    need(clk_offer(router, sender, length, &offered));
    RECORD(clk_record_offered(&record, &offered, 1));
    print_packet(offered.packet);
    printf(offered.outcome == CLK_REFUSED ? " refused" : " accepted");
    if (offered.outcome == CLK_EVICTED)
        printf(" evicted %u#%u", offered.evicted.sender, offered.evicted.number);
    printf("\n");
}

static void pull(clk_router *router, uint64_t moment, unsigned device) {
    clk_packet packet;
    clk_status status = clk_pull(router, (uint16_t)device, moment, &packet);
    if (status != CLK_NONE)
        need(status);
    record_pulls((uint16_t)device, moment, status == CLK_OK, 1);
    print_pull(router, moment, device);
    if (status == CLK_OK)
        print_packet(packet);
    else
        printf("none");
    printf("\n");
}

static void print_departure(const clk_router *router, unsigned device, clk_departure departure) {
    print_pull(router, departure.moment, device);
    print_packet(departure.packet);
    printf("\n");
}

/* A closing begins one tick after the later of its moment and the counted one, and clk_drain after the counted one: so where the moment is
 * later, the first pull of the closing is made here. */
static void begin_closing(clk_router *router, uint64_t moment, unsigned device) {
    uint64_t counted, left;
    clk_departure first = {moment + 1, {0, 0, 0}};
    need(clk_moment(router, (uint16_t)device, &counted));
    need(clk_left(router, (uint16_t)device, &left));
    if (moment > counted && left > 0 && clk_pull(router, (uint16_t)device, moment + 1, &first.packet) == CLK_OK)
        print_departure(router, device, first);
}

static void close_device(clk_router *router, uint64_t moment, unsigned device) {
    clk_departure departures[PIECE];
    clk_status status;
    size_t given;
    begin_closing(router, moment, device);
    do {
        status = clk_drain(router, (uint16_t)device, departures, PIECE, PULLS, &given);
        if (status != CLK_NONE)
            need(status);
        for (size_t i = 0; i < given; i++)
            print_departure(router, device, departures[i]);
    } while (status == CLK_NONE);
}

static void print_total(const char *word, clk_total total, const char *end) {
    printf("%s %" PRIu64 " %" PRIu64 "%s", word, total.packets, total.bytes, end);
}

static void report(const clk_router *router) {
    for (size_t place = 0; place < clk_senders(router); place++) {
        clk_account it;
        need(clk_account_at(router, place, &it));
        clk_total sent = {it.accepted.packets + it.refused.packets, it.accepted.bytes + it.refused.bytes};
        printf("sender %u: ", it.sender);
        print_total("sent", sent, ", ");
        print_total("accepted", it.accepted, ", ");
        print_total("refused", it.refused, ", ");
        print_total("evicted", it.evicted, ", ");
        print_total("emitted", it.emitted, "\n");
    }
}

static void drain(clk_router *router, uint64_t moment) {
    for (unsigned device = 0; device < clk_devices(router); device++)
        close_device(router, moment, device);
    RECORD(clk_record_drain(&record, moment));
    report(router);
}

static void carry_out(clk_router *router, const char *line) {
    unsigned sender, length, device = 0;
    uint64_t moment;
    if (sscanf(line, " send %u %u", &sender, &length) == 2)
        send(router, sender, length);
    else if (sscanf(line, " pull %" SCNu64 " %u", &moment, &device) >= 1)
        pull(router, moment, device);
    else if (sscanf(line, " drain %" SCNu64, &moment) == 1)
        drain(router, moment);
    else if (strspn(line, " \t\r") != strlen(line))
        stop("a line is no command");
}

int main(int argc, char **argv) {
    clk_router router;
    clk_fault fault;
    size_t length;
    if (argc != 3 && argc != 4)
        stop("usage: replay TREE SCRIPT [RECORD]");
    if (argc == 4 && !(recorded = fopen(argv[3], "wb")))
        stop("the record can't be made");
    char *tree = text_of(argv[1], &length);
    if (clk_open(tree, length, &router, &fault) != CLK_OK) {
        fprintf(stderr, "replay: fault %u: %s at byte %u\n", fault.number, clk_fault_name(fault.number), fault.offset);
        return 1;
    }
    free(tree);
    char *script = text_of(argv[2], &length);
    for (char *line = strtok(script, "\n"); line; line = strtok(NULL, "\n"))
        carry_out(&router, line);
    free(script);
    end_record();
    clk_close(&router);
    return 0;
}
