/* Reads the table that sorts packets to senders, and sorts. This is C and no part of what is proved.
 *
 * A line is SENDER ADDRESS PORT: the sender's number; an address, with how many of its bits count (10.0.1.0/24), or *; and a port, ports
 * from one to another (5004-5008), or *. What follows a # is a comment. */
#include "table.h"

#include <arpa/inet.h>
#include <errno.h>
#include <stdio.h>
#include <stdlib.h>
#include <string.h>

/* Reads a number up to `most` at the front of a text, and moves past it. */
static int read_number(const char **text, unsigned long most, unsigned long *number) {
    char *rest;
    if (**text < '0' || **text > '9')
        return 0;
    *number = strtoul(*text, &rest, 10);
    *text = rest;
    return *number <= most;
}

static int read_address(char *text, struct line *line) {
    unsigned long bits;
    if (strcmp(text, "*") == 0)
        return 1;
    char *slash = strchr(text, '/');
    if (slash)
        *slash = 0;
    line->size = strchr(text, ':') ? 16 : 4;
    if (inet_pton(line->size == 16 ? AF_INET6 : AF_INET, text, line->address) != 1)
        return 0;
    line->bits = (unsigned)line->size * 8;
    if (!slash)
        return 1;
    const char *rest = slash + 1;
    if (!read_number(&rest, line->bits, &bits) || *rest != 0)
        return 0;
    line->bits = (unsigned)bits;
    return 1;
}

static int read_ports(const char *text, struct line *line) {
    unsigned long first, last;
    line->last_port = 65535;
    if (strcmp(text, "*") == 0)
        return 1;
    if (!read_number(&text, 65535, &first))
        return 0;
    last = first;
    if (*text == '-') {
        text++;
        if (!read_number(&text, 65535, &last))
            return 0;
    }
    line->first_port = (uint16_t)first;
    line->last_port = (uint16_t)last;
    return *text == 0 && first <= last;
}

/* Reads a line of `size` bytes: 1 where it is one, 0 where it is blank, -1 else. */
static int read_line(char *text, size_t size, struct line *line) {
    static const char blanks[] = " \t\r\n";
    unsigned long number;
    memset(line, 0, sizeof *line);
    if (strlen(text) != size)
        return -1;
    text[strcspn(text, "#")] = 0;
    char *rest, *sender = strtok_r(text, blanks, &rest);
    if (!sender)
        return 0;
    char *address = strtok_r(NULL, blanks, &rest), *ports = strtok_r(NULL, blanks, &rest);
    const char *digits = sender;
    if (!ports || strtok_r(NULL, blanks, &rest) || !read_number(&digits, 65535, &number) || *digits != 0)
        return -1;
    line->sender = (uint16_t)number;
    return read_address(address, line) && read_ports(ports, line) ? 1 : -1;
}

/* Makes room for one more line, by doubling. Returns 0 if an allocation fails. */
static int make_room(struct table *table) {
    if (table->length < table->room)
        return 1;
    size_t room = table->room == 0 ? 16 : table->room * 2;
    struct line *lines = realloc(table->lines, room * sizeof *lines);
    if (!lines)
        return 0;
    table->lines = lines;
    table->room = room;
    return 1;
}

/* Reads the lines of a file, and returns what read_table does. `text` is memory for a line, which getline makes longer. */
static int read_lines(FILE *file, char **text, struct table *table) {
    size_t room = 0;
    ssize_t size;
    errno = 0;
    for (int number = 1; (size = getline(text, &room, file)) >= 0; number++) {
        if (!make_room(table))
            return -1;
        int is_line = read_line(*text, (size_t)size, &table->lines[table->length]);
        if (is_line < 0)
            return number;
        table->length += (size_t)is_line;
    }
    return feof(file) ? 0 : -1;
}

int read_table(const char *path, struct table *table) {
    char *text = NULL;
    FILE *file = fopen(path, "r");
    if (!file)
        return -1;
    int wrong = read_lines(file, &text, table), why = errno;
    free(text);
    fclose(file);
    errno = why;
    return wrong;
}

void free_table(struct table *table) {
    free(table->lines);
    *table = (struct table){0};
}

uint32_t senders_of(const struct table *table) {
    uint32_t senders = 0;
    for (size_t i = 0; i < table->length; i++)
        if (table->lines[i].sender >= senders)
            senders = table->lines[i].sender + 1u;
    return senders;
}

static int same_bits(const uint8_t *one, const uint8_t *other, unsigned bits) {
    unsigned whole = bits / 8, rest = bits % 8;
    if (memcmp(one, other, whole) != 0)
        return 0;
    return rest == 0 || (one[whole] ^ other[whole]) >> (8 - rest) == 0;
}

static int fits(const struct line *line, const struct end *end) {
    if (line->size != 0 && (line->size != end->size || !same_bits(line->address, end->address, line->bits)))
        return 0;
    return line->first_port <= end->port && end->port <= line->last_port;
}

int sender_of(const struct table *table, const struct ends *ends) {
    for (size_t i = 0; i < table->length; i++)
        if (fits(&table->lines[i], &ends->source) || fits(&table->lines[i], &ends->target))
            return table->lines[i].sender;
    return -1;
}
