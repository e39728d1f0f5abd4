/* The capture that is read and the one that is written. This is C and no part of what is proved. */
#ifndef CAPTURES_H
#define CAPTURES_H

#include "ends.h"
#include "kept.h"

enum { MICROSECONDS = 1000000 };

/* Both captures. */
struct captures {
    const char *in_name, *out_name;
    pcap_t *in;
    pcap_dumper_t *out;
    enum link link;
    uint64_t frames;      /* how many were read */
    struct timeval first; /* the time of the first one */
    int is_cut;           /* whether reading ended with an error */
    int is_standard;      /* whether OUT is where standard output goes, under whatever name */
};

/* Opens IN, where - is standard input. Stops if it can't be read. */
void open_in(struct captures *captures, const char *path);

/* Opens OUT, where - is standard output. Stops if it can't be written, or is IN or one of `count` files that are read too. */
void open_out(struct captures *captures, const char *path, char **read, int count);

/* Reads a frame, and when it came, in microseconds from the first frame on. Returns 0 at the end, also where IN is cut. */
int read_frame(struct captures *captures, struct pcap_pkthdr **header, const u_char **bytes, uint64_t *came);

/* Writes a frame that left at this time, in microseconds from the first frame on. Stops if it can't be written. */
void write_frame(struct captures *captures, struct frame *frame, uint64_t left);

/* Closes OUT. Stops if not all of it is stored. */
void close_out(struct captures *captures);

/* Closes IN. Returns 0, or 1 where IN is cut, which it tells. */
int close_in(struct captures *captures);

#endif
