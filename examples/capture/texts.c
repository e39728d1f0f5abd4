/* Reads the tree and the table, and tells what is wrong with them. This is C and no part of what is proved. */
#include "texts.h"
#include "told.h"

#include <errno.h>
#include <stdio.h>
#include <string.h>

enum { MOST_TEXT = 1 << 20 };

const char *read_tree(const char *path, size_t *length) {
    // One byte more than the library takes, so that it refuses a text that is longer.
    static char text[MOST_TEXT + 1];
    FILE *file = fopen(path, "rb");
    if (!file)
        stop("%s: %s", path, strerror(errno));
    *length = fread(text, 1, sizeof text, file);
    if (ferror(file))
        stop("%s: %s", path, strerror(errno));
    fclose(file);
    return text;
}

void stop_at_fault(const char *path, const clk_fault *fault) {
    stop("%s: fault %u: %s at byte %u", path, fault->number, clk_fault_name(fault->number), fault->offset);
}

void open_table(const char *path, struct table *table) {
    int wrong = read_table(path, table);
    if (wrong < 0)
        stop("%s: %s", path, strerror(errno));
    if (wrong > 0)
        stop("%s: line %d isn't SENDER ADDRESS PORT", path, wrong);
}
