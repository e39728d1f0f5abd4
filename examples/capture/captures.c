/* Reads a capture and writes another, by libpcap. This is C and no part of what is proved. */
#include "captures.h"
#include "told.h"

#include <errno.h>
#include <inttypes.h>
#include <string.h>
#include <sys/stat.h>

/* Whether a word names standard input or output. */
static int is_standard(const char *path) {
    return strcmp(path, "-") == 0;
}

/* Opens a file, or takes the standard stream. */
static FILE *open_file(const char *path, const char *mode, FILE *standard) {
    FILE *file = is_standard(path) ? standard : fopen(path, mode);
    if (!file)
        stop("%s: %s", path, strerror(errno));
    return file;
}

void open_in(struct captures *captures, const char *path) {
    char why[PCAP_ERRBUF_SIZE];
    captures->in_name = is_standard(path) ? "standard input" : path;
    captures->in = pcap_fopen_offline(open_file(path, "rb", stdin), why);
    if (!captures->in)
        stop("%s: %s", captures->in_name, why);
    int link = pcap_datalink(captures->in);
    if (link != DLT_EN10MB && link != DLT_RAW)
        stop("%s: its frames are neither Ethernet nor bare IP", captures->in_name);
    captures->link = link == DLT_EN10MB ? ETHERNET : BARE;
}

static int is_same(const struct stat *one, const struct stat *other) {
    return one->st_dev == other->st_dev && one->st_ino == other->st_ino;
}

/* Stops if a file is OUT too: opening that to write would empty it. Devices and pipes are no such files. */
static void stop_if_same(const struct stat *out, const char *out_name, const struct stat *read, const char *read_name) {
    if (S_ISREG(out->st_mode) && is_same(out, read))
        stop("%s: it is also %s, which is read", out_name, read_name);
}

/* Stops if OUT is IN or another file that is read. */
static void stop_if_read(const struct captures *captures, const char *path, char **read, int count) {
    struct stat out, it;
    if ((is_standard(path) ? fstat(fileno(stdout), &out) : stat(path, &out)) != 0)
        return;
    if (fstat(fileno(pcap_file(captures->in)), &it) == 0)
        stop_if_same(&out, captures->out_name, &it, captures->in_name);
    for (int i = 0; i < count; i++)
        if (stat(read[i], &it) == 0)
            stop_if_same(&out, captures->out_name, &it, read[i]);
}

static int is_standard_output(FILE *file) {
    struct stat it, standard;
    return fstat(fileno(file), &it) == 0 && fstat(fileno(stdout), &standard) == 0 && is_same(&it, &standard);
}

void open_out(struct captures *captures, const char *path, char **read, int count) {
    captures->out_name = is_standard(path) ? "standard output" : path;
    stop_if_read(captures, path, read, count);
    FILE *file = open_file(path, "wb", stdout);
    captures->is_standard = is_standard_output(file);
    captures->out = pcap_dump_fopen(captures->in, file);
    if (!captures->out)
        stop("%s: %s", captures->out_name, pcap_geterr(captures->in));
}

/* The time of a frame, in microseconds from the first on. One that is before it counts as that. */
static uint64_t time_of(const struct captures *captures, const struct pcap_pkthdr *header) {
    int64_t whole = (int64_t)header->ts.tv_sec - captures->first.tv_sec;
    int64_t all = whole * MICROSECONDS + header->ts.tv_usec - captures->first.tv_usec;
    return all < 0 ? 0 : (uint64_t)all;
}

int read_frame(struct captures *captures, struct pcap_pkthdr **header, const u_char **bytes, uint64_t *came) {
    int got = pcap_next_ex(captures->in, header, bytes);
    captures->is_cut = got == PCAP_ERROR;
    if (got != 1)
        return 0;
    if (captures->frames++ == 0)
        captures->first = (*header)->ts;
    *came = time_of(captures, *header);
    return 1;
}

void write_frame(struct captures *captures, struct frame *frame, uint64_t left) {
    uint64_t all = (uint64_t)captures->first.tv_usec + left;
    frame->header.ts.tv_sec = captures->first.tv_sec + (time_t)(all / MICROSECONDS);
    frame->header.ts.tv_usec = (suseconds_t)(all % MICROSECONDS);
    pcap_dump((u_char *)captures->out, &frame->header, frame->bytes);
    if (ferror(pcap_dump_file(captures->out)))
        stop("%s: %s", captures->out_name, strerror(errno));
}

void close_out(struct captures *captures) {
    stop_unless_stored(pcap_dump_file(captures->out), captures->out_name);
    pcap_dump_close(captures->out);
}

int close_in(struct captures *captures) {
    if (captures->is_cut)
        complain("%s: it is cut or damaged after %" PRIu64 " frames: %s", captures->in_name, captures->frames, pcap_geterr(captures->in));
    pcap_close(captures->in);
    return captures->is_cut;
}
