/* Writes the trees that are measured. This is C and no part of what is proved. */
#include "trees.h"

#include <stdarg.h>
#include <stdio.h>
#include <stdlib.h>
#include <string.h>

struct text {
    char *to;
    size_t length, room;
};

__attribute__((format(printf, 2, 3))) static void put(struct text *text, const char *format, ...) {
    va_list rest;
    va_start(rest, format);
    int more = vsnprintf(text->to + text->length, text->room - text->length, format, rest);
    va_end(rest);
    if (more < 0 || (size_t)more >= text->room - text->length)
        abort();
    text->length += (size_t)more;
}

static void put_queues(struct text *text, const struct tree *tree) {
    for (unsigned i = 0; i < tree->queues; i++)
        put(text, "s%u :: Sender(%u); q%u :: Queue(%d); s%u -> q%u;\n", i, i, i, ROOM, i, i);
    put(text, "link :: ToDevice(eth0);\n");
}

/* A scheduler over all queues. The inputs of a StrideSched have 1 to 8 tickets. */
static void put_one_level(struct text *text, const struct tree *tree) {
    put(text, "top :: %s", tree->scheduler);
    for (unsigned i = 0; strcmp(tree->scheduler, "StrideSched") == 0 && i < tree->queues; i++)
        put(text, "%s%u", i == 0 ? "(" : ", ", 1 + i % 8);
    put(text, strcmp(tree->scheduler, "StrideSched") == 0 ? ");\n" : ";\n");
    for (unsigned i = 0; i < tree->queues; i++)
        put(text, "q%u -> [%u] top;\n", i, i);
}

/* Four classes by tickets, in each four customers by bytes, and of each four queues in turn. */
static void put_three_levels(struct text *text, const struct tree *tree) {
    put(text, "top :: StrideSched(8, 4, 2, 1);\n");
    for (unsigned i = 0; i < 4; i++)
        put(text, "class%u :: DRRSched(1500); class%u -> [%u] top;\n", i, i, i);
    for (unsigned i = 0; i < 16; i++)
        put(text, "customer%u :: RoundRobinSched; customer%u -> [%u] class%u;\n", i, i, i % 4, i / 4);
    for (unsigned i = 0; i < tree->queues; i++)
        put(text, "q%u -> [%u] customer%u;\n", i, i % 4, i / 4);
}

size_t write_tree(const struct tree *tree, char *to, size_t room) {
    struct text text = {to, 0, room};
    put_queues(&text, tree);
    if (tree->scheduler)
        put_one_level(&text, tree);
    else
        put_three_levels(&text, tree);
    put(&text, "top -> link;\n");
    return text.length;
}
