/* Reads the words of the command. This is C and no part of what is proved. */
#include "options.h"
#include "clickpull.h"
#include "rate.h"
#include "told.h"

#include <getopt.h>
#include <stdlib.h>

static const char USAGE[] = "usage: forward EAL-WORDS -- TREE TABLE [--queues N] [--rate RATE] [--tick MICROSECONDS] [--room FRAMES]"
                            " [--hold] [--record FILE] [--frames N] [--seconds N] [--once] [--timed]";

static const struct option WORDS[] = {
    {"queues", required_argument, NULL, 'q'}, {"rate", required_argument, NULL, 'b'},    {"tick", required_argument, NULL, 't'},
    {"room", required_argument, NULL, 'i'},   {"hold", no_argument, NULL, 'h'},          {"record", required_argument, NULL, 'r'},
    {"frames", required_argument, NULL, 'f'}, {"seconds", required_argument, NULL, 's'}, {"once", no_argument, NULL, 'o'},
    {"timed", no_argument, NULL, 'm'},        {NULL, 0, NULL, 0},
};

/* A number from 1 to `most`. Stops if the text is none. */
static uint64_t number(const char *text, uint64_t most) {
    char *rest;
    // strtoull takes blanks and a sign before the digits, and returns its greatest number for all that are greater.
    unsigned long long it = *text < '0' || *text > '9' ? 0 : strtoull(text, &rest, 10);
    if (it == 0 || *rest != 0 || it > most)
        stop("'%s' isn't a number from 1 to %llu", text, (unsigned long long)most);
    return it;
}

static void read_link_rate(const char *text, uint64_t *rate) {
    if (!read_rate(text, rate))
        stop("'%s' isn't a rate: bits a second from 1 on, as 8000000, 8000k or 8M", text);
}

static void read_option(int option, struct options *options) {
    enum { MOST = 1000000000 };
    switch (option) {
    case 'q':
        options->queues = (uint16_t)number(optarg, MOST_QUEUES);
        break;
    case 'b':
        read_link_rate(optarg, &options->rate);
        break;
    case 't':
        options->tick = number(optarg, MOST);
        break;
    case 'i':
        options->room = (uint32_t)number(optarg, CLK_MOST_ROOM);
        break;
    case 'h':
        options->is_held = 1;
        break;
    case 'r':
        options->record = optarg;
        break;
    case 'f':
        options->frames = number(optarg, UINT64_MAX - 1);
        break;
    case 's':
        options->seconds = number(optarg, MOST);
        break;
    case 'o':
        options->is_once = 1;
        break;
    case 'm':
        options->is_timed = 1;
        break;
    default:
        stop("%s", USAGE);
    }
}

void read_options(int count, char **words, struct options *options) {
    int option;
    *options = (struct options){.tick = 1, .room = 1024, .queues = 1};
    // DPDK reads its own words by getopt too.
    optind = 1;
    opterr = 0;
    while ((option = getopt_long(count, words, "", WORDS, NULL)) != -1)
        read_option(option, options);
    if (count - optind != 2)
        stop("%s", USAGE);
    options->tree = words[optind];
    options->table = words[optind + 1];
}
