/* The texts that say what to do: the tree and the table. This is C and no part of what is proved. */
#ifndef TEXTS_H
#define TEXTS_H

#include "clickpull.h"
#include "table.h"

/* The text of a tree, in memory that isn't freed, with its length. Stops if the file can't be read. */
const char *read_tree(const char *path, size_t *length);

/* Stops, and tells the fault of a tree. */
__attribute__((noreturn)) void stop_at_fault(const char *path, const clk_fault *fault);

/* Reads a table into an empty one. Stops if it is none. */
void open_table(const char *path, struct table *table);

#endif
