/* The trees that are measured. This is C and no part of what is proved. */
#ifndef TREES_H
#define TREES_H

#include <stddef.h>

/* Each queue has a sender of its own, of the same number, and room for 64 packets. Of the queues every `each`-th is busy, the last one
 * among them, and the others are empty. */
struct tree {
    const char *name;
    unsigned queues, each;
    const char *scheduler; /* its class with its arguments; NULL for the tree of three levels */
};

static const struct tree TREES[] = {
    {"one queue", 1, 1, "PrioSched"},
    {"PrioSched over 8, busy", 8, 1, "PrioSched"},
    {"PrioSched over 8, sparse", 8, 4, "PrioSched"},
    {"PrioSched over 64, busy", 64, 1, "PrioSched"},
    {"PrioSched over 64, sparse", 64, 32, "PrioSched"},
    {"RoundRobinSched over 8, busy", 8, 1, "RoundRobinSched"},
    {"RoundRobinSched over 8, sparse", 8, 4, "RoundRobinSched"},
    {"RoundRobinSched over 64, busy", 64, 1, "RoundRobinSched"},
    {"RoundRobinSched over 64, sparse", 64, 32, "RoundRobinSched"},
    {"DRRSched over 8, busy", 8, 1, "DRRSched(1500)"},
    {"DRRSched over 8, sparse", 8, 4, "DRRSched(1500)"},
    {"DRRSched over 64, busy", 64, 1, "DRRSched(1500)"},
    {"DRRSched over 64, sparse", 64, 32, "DRRSched(1500)"},
    {"StrideSched over 8, busy", 8, 1, "StrideSched"},
    {"StrideSched over 8, sparse", 8, 4, "StrideSched"},
    {"StrideSched over 64, busy", 64, 1, "StrideSched"},
    {"StrideSched over 64, sparse", 64, 32, "StrideSched"},
    {"three levels over 64, busy", 64, 1, NULL},
    {"three levels over 64, sparse", 64, 32, NULL},
};

enum { TREE_COUNT = sizeof TREES / sizeof *TREES, MOST_QUEUES = 64, ROOM = 64, FILL = 32 };

/* The text of a tree, in Click's language. */
size_t write_tree(const struct tree *tree, char *text, size_t room);

#endif
