/* Carries out the table of cases that all bindings share (tests/bindings/cases has the format): cases TABLE
 *
 * It says how many answers were compared; status 1 where one is wrong. It stands outside what is proved. */
#include "clickpull.h"

#include <inttypes.h>
#include <stdarg.h>
#include <stdio.h>
#include <stdlib.h>
#include <string.h>

enum { LONGEST = 1 << 13, MOST_SENDERS = 8, MOST_PACKETS = 64 };

/* A sender's inlet, and the tokens of its packets that are inside, by their numbers. */
struct sender {
    uint32_t number;
    clk_inlet inlet;
    uint64_t tokens[MOST_PACKETS];
    int is_inside[MOST_PACKETS];
};

static char answer[LONGEST], tree[LONGEST], recorded[LONGEST];
static clk_record record;
static clk_status record_status;
static int is_live, compared, wrong, misplaced;
static uint32_t room;
static uint64_t tried;
static clk_router router;
static clk_live live;
static struct sender senders[MOST_SENDERS];

static void say(const char *format, ...) {
    size_t length = strlen(answer);
    va_list of;
    va_start(of, format);
    vsnprintf(answer + length, sizeof answer - length, format, of);
    va_end(of);
}

static const char *between(const char *mark) {
    return answer[0] ? mark : "";
}

/* Answers an error where a status is one. Returns whether the call was made. */
static int is_made(clk_status status) {
    static const char *const NAMES[] = {
        [CLK_SHUT] = "SHUT",
        [CLK_UNKNOWN_SENDER] = "UNKNOWN_SENDER",
        [CLK_UNKNOWN_DEVICE] = "UNKNOWN_DEVICE",
        [CLK_BAD_LENGTH] = "BAD_LENGTH",
        [CLK_AT_END] = "AT_END",
        [CLK_UNKNOWN_QUEUE] = "UNKNOWN_QUEUE",
        [CLK_BAD_ROOM] = "BAD_ROOM",
        [CLK_HANDED_OUT] = "HANDED_OUT",
    };
    if (status == CLK_OK || status == CLK_NONE)
        return 1;
    say("error %s", (size_t)status < sizeof NAMES / sizeof *NAMES && NAMES[status] ? NAMES[status] : "of another kind");
    return 0;
}

/* The sender with this number, of which there may be none yet. */
static struct sender *sender_of(uint64_t number) {
    for (size_t i = 0; i < MOST_SENDERS; i++)
        if (senders[i].number == number || senders[i].number == UINT32_MAX) {
            senders[i].number = (uint32_t)number;
            return &senders[i];
        }
    fprintf(stderr, "cases: too many senders\n");
    exit(2);
}

/* A packet came back: its token is the one that went in with it. */
static void check_token(clk_packet packet, uint64_t token) {
    struct sender *it = sender_of(packet.sender);
    if (packet.number >= MOST_PACKETS || !it->is_inside[packet.number] || it->tokens[packet.number] != token)
        misplaced++;
    else
        it->is_inside[packet.number] = 0;
}

/* Notes whether the record could have the lines of a call. Once it couldn't, it isn't looked at any more. */
static void note(clk_status status) {
    if (record_status == CLK_OK)
        record_status = status;
}

static void say_record(const uint64_t *n) {
    (void)n;
    if (!is_made(record_status))
        return;
    for (size_t i = 0, end; i < record.used; i = end + 1) {
        end = i + strcspn(recorded + i, "\n");
        say("%s%.*s", between("; "), (int)(end - i), recorded + i);
    }
    if (record.used == 0)
        say("nothing");
}

static void say_packet(const char *before, clk_packet it) {
    say("%s%u/%" PRIu32 "/%u", before, it.sender, it.number, it.length);
}

static void say_total(const char *name, clk_total it) {
    say("%s%s %" PRIu64 "/%" PRIu64, between(" "), name, it.packets, it.bytes);
}

static void open_it(const uint64_t *n) {
    (void)n;
    clk_fault fault = {0, 0};
    clk_status status = is_live ? clk_live_open(tree, strlen(tree), room, &live, &fault) : clk_open(tree, strlen(tree), &router, &fault);
    if (status == CLK_FAULT) {
        unsigned line = 1, column = 1;
        for (uint32_t i = 0; i < fault.offset; i++) {
            column = tree[i] == '\n' ? 1 : column + 1;
            line += tree[i] == '\n';
        }
        say("fault %" PRIu32 " %s %" PRIu32 " %u %u", fault.number, clk_fault_name(fault.number), fault.offset, line, column);
    } else if (is_made(status))
        say("ok");
}

static void shut_it(const uint64_t *n) {
    (void)n;
    clk_close(&router);
    clk_live_close(&live);
    say("ok");
}

static void offer(const uint64_t *n) {
    static const char *const OUTCOMES[] = {"accepted", "refused", "evicting"};
    clk_offered it;
    if (!is_made(clk_offer(&router, (uint32_t)n[0], (uint32_t)n[1], &it)))
        return;
    note(clk_record_offered(&record, &it, 1));
    say("%s %" PRIu32, OUTCOMES[it.outcome], it.packet.number);
    if (it.outcome == CLK_EVICTED)
        say(" %u %" PRIu32 " %u", it.evicted.sender, it.evicted.number, it.evicted.length);
}

/* What a pull, a call for many pulls and a drain fill in, with or without tokens. */
static struct {
    clk_emitted emitted[MOST_PACKETS];
    clk_departed departed[MOST_PACKETS];
    clk_packet packets[MOST_PACKETS];
    clk_departure departures[MOST_PACKETS];
} filled;

static void pull(const uint64_t *n) {
    clk_emitted it;
    clk_status status = is_live ? clk_live_pull(&live, (uint16_t)n[0], n[1], &it) : clk_pull(&router, (uint16_t)n[0], n[1], &it.packet);
    if (!is_made(status))
        return;
    note(clk_record_pulls(&record, (uint16_t)n[0], n[1], 1));
    if (status == CLK_OK && is_live)
        check_token(it.packet, it.token);
    if (status == CLK_OK)
        say("packet %u %" PRIu32 " %u", it.packet.sender, it.packet.number, it.packet.length);
    else
        say("none");
}

static void pull_many(const uint64_t *n) {
    size_t given;
    clk_status status = is_live ? clk_live_pull_many(&live, (uint16_t)n[0], n[1], filled.emitted, (size_t)n[2], &given)
                                : clk_pull_many(&router, (uint16_t)n[0], n[1], filled.packets, (size_t)n[2], &given);
    if (!is_made(status))
        return;
    note(clk_record_pulls(&record, (uint16_t)n[0], n[1], given < n[2] ? given + 1 : given));
    for (size_t i = 0; i < given; i++) {
        if (is_live)
            check_token(filled.emitted[i].packet, filled.emitted[i].token);
        say_packet(between(" "), is_live ? filled.emitted[i].packet : filled.packets[i]);
    }
    if (given == 0)
        say("nothing");
}

static clk_status ask_moment(const uint64_t *n, uint64_t *it) {
    return is_live ? clk_live_moment(&live, (uint16_t)n[0], it) : clk_moment(&router, (uint16_t)n[0], it);
}

static void drain(const uint64_t *n) {
    size_t given;
    uint64_t before = 0, after = 0;
    ask_moment(n, &before);
    clk_status status = is_live ? clk_live_drain(&live, (uint16_t)n[0], filled.departed, (size_t)n[2], n[1], &given)
                                : clk_drain(&router, (uint16_t)n[0], filled.departures, (size_t)n[2], n[1], &given);
    ask_moment(n, &after);
    while (before < after)
        note(clk_record_pulls(&record, (uint16_t)n[0], ++before, 1));
    if ((status != CLK_AT_END || given == 0) && !is_made(status))
        return;
    say(status == CLK_OK ? "all" : "more");
    for (size_t i = 0; i < given; i++) {
        if (is_live)
            check_token(filled.departed[i].packet, filled.departed[i].token);
        say(" %" PRIu64, is_live ? filled.departed[i].moment : filled.departures[i].moment);
        say_packet(":", is_live ? filled.departed[i].packet : filled.departures[i].packet);
    }
}

static void due(const uint64_t *n) {
    uint64_t it = 0;
    clk_status status = is_live ? clk_live_due(&live, (uint16_t)n[0], &it) : clk_due(&router, (uint16_t)n[0], &it);
    if (status == CLK_NONE)
        say("none");
    else if (is_made(status))
        say("%" PRIu64, it);
}

static void moment(const uint64_t *n) {
    uint64_t it = 0;
    if (is_made(ask_moment(n, &it)))
        say("%" PRIu64, it);
}

static void left(const uint64_t *n) {
    uint64_t it = 0;
    if (is_made(is_live ? clk_live_left(&live, (uint16_t)n[0], &it) : clk_left(&router, (uint16_t)n[0], &it)))
        say("%" PRIu64, it);
}

static void account(const uint64_t *n) {
    clk_account it;
    clk_status status;
    size_t place = 0;
    do
        status = is_live ? clk_live_account_at(&live, place++, &it) : clk_account_at(&router, place++, &it);
    while (status == CLK_OK && it.sender != n[0]);
    if (!is_made(status))
        return;
    say_total("offered", (clk_total){it.accepted.packets + it.refused.packets, it.accepted.bytes + it.refused.bytes});
    say_total("accepted", it.accepted);
    say_total("refused", it.refused);
    say_total("evicted", it.evicted);
    say_total("emitted", it.emitted);
}

static void queue(const uint64_t *n) {
    clk_queue it;
    if (is_made(is_live ? clk_live_queue_at(&live, (uint16_t)n[0], &it) : clk_queue_at(&router, (uint16_t)n[0], &it)))
        say("%" PRIu64 " %" PRIu64 " %u %u", it.capacity, it.held, it.device, it.front_drop);
}

static void inlet(const uint64_t *n) {
    clk_inlet it;
    if (!is_made(clk_live_inlet(&live, (uint32_t)n[0], &it)))
        return;
    sender_of(n[0])->inlet = it;
    say("ok");
}

static void put(const uint64_t *n) {
    struct sender *it = sender_of(n[0]);
    uint32_t number = 0;
    uint64_t token = tried++;
    clk_status status = clk_inlet_offer(&it->inlet, (uint32_t)n[1], token, &number);
    if (status == CLK_FULL || status == CLK_SHUT)
        say(status == CLK_FULL ? "full" : "shut");
    else if (is_made(status)) {
        say("number %" PRIu32, number);
        it->tokens[number % MOST_PACKETS] = token;
        it->is_inside[number % MOST_PACKETS] = 1;
    }
}

static void room_of(const uint64_t *n) {
    size_t it = 0;
    if (is_made(clk_inlet_room(&sender_of(n[0])->inlet, &it)))
        say("%zu", it);
}

static void close_it(const uint64_t *n) {
    if (is_made(clk_inlet_close(&sender_of(n[0])->inlet)))
        say("ok");
}

static void say_taken(const clk_taken *it) {
    if (it->outcome == CLK_EVICTED) {
        check_token(it->evicted, it->evicted_token);
        say("%sevicting ", between("; "));
        say_packet("", it->evicted);
        say_packet(" by ", it->packet);
        return;
    }
    if (it->outcome == CLK_REFUSED)
        check_token(it->packet, it->token);
    say("%s%s", between("; "), it->outcome == CLK_REFUSED ? "refused " : "accepted ");
    say_packet("", it->packet);
}

static void take_by(clk_status status, const clk_taken *taken, size_t given) {
    if (!is_made(status))
        return;
    note(clk_record_taken(&record, taken, given));
    for (size_t i = 0; i < given; i++)
        say_taken(&taken[i]);
    if (given == 0)
        say("nothing");
}

static void take(const uint64_t *n) {
    clk_taken taken[CLK_MOST_TAKEN];
    size_t given;
    clk_status status = clk_live_take(&live, (uint32_t)n[0], taken, (size_t)n[1], &given);
    take_by(status, taken, given);
}

static void take_in(const uint64_t *n) {
    clk_taken taken[CLK_MOST_TAKEN];
    size_t given;
    clk_status status = clk_live_take_in(&live, (size_t)n[0], taken, (size_t)n[1], &given);
    take_by(status, taken, given);
}

static void take_what_fits(const uint64_t *n) {
    clk_taken taken[CLK_MOST_TAKEN];
    size_t given;
    clk_status status = clk_live_take_what_fits(&live, (size_t)n[0], taken, (size_t)n[1], &given);
    take_by(status, taken, given);
}

static void ended(const uint64_t *n) {
    (void)n;
    clk_status status = clk_live_ended(&live);
    if (is_made(status))
        say(status == CLK_OK ? "yes" : "no");
}

static void drained(const uint64_t *n) {
    (void)n;
    clk_status status = clk_live_drained(&live);
    if (is_made(status))
        say(status == CLK_OK ? "yes" : "no");
}

/* The calls, by their words. */
static const struct {
    const char *name;
    void (*make)(const uint64_t *n);
} CALLS[] = {
    {"open", open_it},    {"shut", shut_it},       {"offer", offer},     {"pull", pull},
    {"drain", drain},     {"pull_many", pull_many}, {"due", due},        {"moment", moment},
    {"left", left},       {"account", account},    {"queue", queue},     {"inlet", inlet},
    {"put", put},         {"room", room_of},       {"close", close_it},  {"take", take},
    {"take_in", take_in}, {"ended", ended},        {"drained", drained}, {"take_what_fits", take_what_fits},
    {"record", say_record},
};

/* Ends the case before, and begins one. */
static void begin(void) {
    clk_close(&router);
    clk_live_close(&live);
    for (size_t i = 0; i < MOST_SENDERS; i++) {
        clk_inlet_close(&senders[i].inlet);
        senders[i] = (struct sender){.number = UINT32_MAX};
    }
    is_live = 0;
    tried = 0;
    record = (clk_record){recorded, sizeof recorded, 0, 0};
    record_status = CLK_OK;
}

/* Copies a tree, in which \n stands for a line feed. */
static void read_tree(const char *text) {
    size_t length = 0;
    for (; *text; text++)
        if (text[0] == '\\' && text[1] == 'n') {
            tree[length++] = '\n';
            text++;
        } else
            tree[length++] = *text;
    tree[length] = 0;
}

/* Makes a call, and compares its answer. */
static void step(const char *name, const char *line) {
    char word[32] = "";
    uint64_t n[3] = {0, 0, 0};
    const char *wanted = strstr(line, "->");
    sscanf(line, "%31s %" SCNu64 " %" SCNu64 " %" SCNu64, word, &n[0], &n[1], &n[2]);
    answer[0] = 0;
    misplaced = 0;
    for (size_t i = 0; i < sizeof CALLS / sizeof *CALLS; i++)
        if (strcmp(word, CALLS[i].name) == 0)
            CALLS[i].make(n);
    compared++;
    if (wanted && strcmp(answer, wanted[2] ? wanted + 3 : "") == 0 && misplaced == 0)
        return;
    wrong++;
    fprintf(stderr, "%s: %s, and not %s%s\n", name, line, answer, misplaced ? ", with tokens of other packets" : "");
}

static void read_line(char *line) {
    static char name[LONGEST];
    line[strcspn(line, "\n")] = 0;
    if (line[0] == 0 || line[0] == '#')
        return;
    if (strncmp(line, "case ", 5) == 0) {
        begin();
        strcpy(name, line + 5);
    } else if (strncmp(line, "tree", 4) == 0)
        read_tree(line[4] ? line + 5 : "");
    else if (strncmp(line, "room ", 5) == 0 && !strstr(line, "->")) {
        is_live = 1;
        room = (uint32_t)strtoul(line + 5, NULL, 10);
    } else
        step(name, line);
}

int main(int count, char **words) {
    static char line[LONGEST];
    FILE *table = count == 2 ? fopen(words[1], "r") : NULL;
    if (!table) {
        fprintf(stderr, "cases: wants a table that can be read\n");
        return 2;
    }
    for (size_t i = 0; i < MOST_SENDERS; i++)
        senders[i].number = UINT32_MAX;
    while (fgets(line, sizeof line, table))
        read_line(line);
    begin();
    fclose(table);
    printf("%d answers compared, %d wrong\n", compared, wrong);
    return wrong != 0 || compared == 0;
}
