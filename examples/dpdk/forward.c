/* Forwards frames from one port to another through the tree of a link. This is C over DPDK, and no part of what is proved.
 *
 *     forward EAL-WORDS -- TREE TABLE [--queues N] [--rate RATE] [--tick MICROSECONDS] [--room FRAMES] [--hold]
 *                                     [--record FILE] [--frames N] [--seconds N] [--once] [--timed]
 *
 * Receive cores sort frames to senders by TABLE, and hand them over. The main core queues them in TREE, pulls the link at RATE, and
 * transmits. A tick of the tree is a microsecond, or as many as --tick says. README.md says what the other words do.
 *
 * The run ends once --frames frames have come, or, with --once, once no receive queue gives a frame; then all that is inside is sent. A
 * signal, or the end of --seconds, ends it at once, and frees what is inside. Exit status 1 says that something is wrong. */
#include "accounts.h"
#include "pace.h"
#include "ports.h"
#include "receive.h"
#include "texts.h"
#include "told.h"

#include <errno.h>
#include <rte_cycles.h>
#include <rte_eal.h>
#include <rte_errno.h>
#include <signal.h>
#include <stdlib.h>
#include <string.h>
#include <time.h>

const char told_by[] = "forward";

struct run {
    struct options options;
    struct table table;
    struct ports ports;
    struct pace pace;
    struct reception reception;
    uint64_t start, end; /* by the TSC; no end if it is 0 */
    uint64_t cycles_a_tick;
    double seconds, scheduling; /* how long it took, and for how long of that this thread had a processor */
    int is_cut;                 /* whether frames that are inside aren't sent any more */
};

static volatile sig_atomic_t is_asked_to_end;

static void ask_to_end(int signal) {
    (void)signal;
    is_asked_to_end = 1;
}

static void catch_signals(void) {
    struct sigaction action = {.sa_handler = ask_to_end};
    if (sigaction(SIGINT, &action, NULL) != 0 || sigaction(SIGTERM, &action, NULL) != 0)
        stop("signals aren't caught: %s", strerror(errno));
}

/* Has mbufs read to the cache of this core, which maybe never read them, since a driver is going to read and free them. */
static void prefetch(struct rte_mbuf *const *frames, unsigned count) {
    for (unsigned i = 0; i < count; i++) {
        rte_mbuf_prefetch_part1(frames[i]);
        rte_mbuf_prefetch_part2(frames[i]);
    }
}

/* Transmits what waits, and then what the tree gives at this time. */
static void transmit(struct run *run, uint64_t now) {
    struct outlet *outlet = &run->ports.outlet;
    if (!flush(outlet))
        return;
    unsigned most = frames_due(&run->pace, now);
    if (most == 0)
        return;
    outlet->first = 0;
    outlet->count = pull_frames(run->reception.scheduler, (now - run->start) / run->cycles_a_tick, outlet->frames, most);
    prefetch(outlet->frames, outlet->count);
    count_sent(&run->pace, outlet->frames, outlet->count, most);
    flush(outlet);
}

/* Ends the run at once if it is time, or a signal asks for it. */
static void cut_in_time(struct run *run, uint64_t now) {
    if (is_asked_to_end || (run->end != 0 && now >= run->end)) {
        run->is_cut = 1;
        atomic_store(&run->reception.is_over, 1);
    }
}

static int is_through(struct run *run) {
    struct scheduler *scheduler = run->reception.scheduler;
    if (atomic_load(&run->reception.receiving) > 0 || !has_ended(scheduler))
        return 0;
    return run->is_cut || (is_drained(scheduler) && run->ports.outlet.count == 0);
}

/* What the scheduling core does. */
static void serve(struct run *run) {
    while (!is_through(run)) {
        uint64_t now = rte_rdtsc();
        queue_frames(run->reception.scheduler);
        transmit(run, now);
        cut_in_time(run, now);
    }
}

static void open_run(struct run *run, int count, char **words) {
    read_options(count, words, &run->options);
    open_table(run->options.table, &run->table);
    run->reception = (struct reception){.options = &run->options, .table = &run->table};
    run->reception.scheduler = open_scheduler(&run->options, &run->table);
    open_ports(&run->ports, run->options.queues, most_inside(run->reception.scheduler));
    run->reception.port = run->ports.in;
    run->cycles_a_tick = RTE_MAX((rte_get_tsc_hz() * run->options.tick + 500000) / 1000000, UINT64_C(1));
}

/* For how long this thread had a processor, in seconds. */
static double processor_time(void) {
    struct timespec time;
    if (clock_gettime(CLOCK_THREAD_CPUTIME_ID, &time) != 0)
        stop("no clock: %s", strerror(errno));
    return (double)time.tv_sec + (double)time.tv_nsec * 1e-9;
}

static void carry_out(struct run *run) {
    double before = processor_time();
    run->start = rte_rdtsc();
    set_pace(&run->pace, run->options.rate, run->start);
    run->end = run->options.seconds == 0 ? 0 : run->start + run->options.seconds * rte_get_tsc_hz();
    start_receiving(&run->reception);
    serve(run);
    run->seconds = (double)(rte_rdtsc() - run->start) / (double)rte_get_tsc_hz();
    run->scheduling = processor_time() - before;
    finish_receiving();
    give_up(&run->ports.outlet);
}

static void tell(struct run *run) {
    uint32_t senders = senders_of(&run->table);
    struct account *accounts = calloc(senders + 1, sizeof *accounts);
    if (!accounts)
        stop("no memory");
    struct totals totals = {
        .came = atomic_load(&run->reception.came),
        .left_out = atomic_load(&run->reception.left_out),
        .missed = missed(&run->ports),
        .transmitted = run->ports.outlet.transmitted,
        .unsent = run->ports.outlet.lost,
        .seconds = run->seconds,
        .scheduling = run->scheduling,
    };
    read_accounts(run->reception.scheduler, accounts);
    report(stdout, accounts, senders, &totals);
    free(accounts);
}

static int close_run(struct run *run) {
    close_scheduler(run->reception.scheduler);
    int is_whole = close_ports(&run->ports);
    free_table(&run->table);
    if (rte_eal_cleanup() != 0)
        stop("DPDK isn't closed: %s", rte_strerror(rte_errno));
    stop_unless_stored(stdout, "standard output");
    return is_whole;
}

int main(int argc, char **argv) {
    static struct run run;
    int words = rte_eal_init(argc, argv);
    if (words < 0)
        stop("DPDK doesn't start: %s", rte_strerror(rte_errno));
    catch_signals();
    open_run(&run, argc - words, argv + words);
    carry_out(&run);
    tell(&run);
    return close_run(&run) ? EXIT_SUCCESS : EXIT_FAILURE;
}
