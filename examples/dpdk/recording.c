/* Writes the record of a run to a file. This is C and no part of what is proved. */
#include "recording.h"
#include "told.h"

#include <errno.h>
#include <string.h>

void open_recording(struct recording *recording, const char *name) {
    recording->name = name;
    recording->record = (clk_record){recording->lines, sizeof recording->lines, 0, 0};
    if (!name)
        return;
    recording->file = fopen(name, "wb");
    if (!recording->file)
        stop("%s: %s", name, strerror(errno));
}

static int is_wanted(const struct recording *recording) {
    return recording->file && !recording->is_full;
}

static void write_lines(struct recording *recording) {
    if (fwrite(recording->record.text, 1, recording->record.used, recording->file) != recording->record.used)
        stop("%s: %s", recording->name, strerror(errno));
    recording->record.used = 0;
}

/* Whether a call that adds lines has to be made again, since the buffer was full. What a record can't have ends it. */
static int is_wanted_again(struct recording *recording, clk_status status) {
    if (status == CLK_FULL)
        write_lines(recording);
    else if (status == CLK_AT_END)
        recording->is_full = 1;
    else if (status != CLK_OK)
        stop("%s: %s", recording->name, clk_status_text(status));
    return status == CLK_FULL;
}

void record_taken(struct recording *recording, const clk_taken *taken, size_t count) {
    if (is_wanted(recording))
        while (is_wanted_again(recording, clk_record_taken(&recording->record, taken, count)))
            ;
}

void record_pulls(struct recording *recording, uint64_t moment, size_t given, size_t count) {
    uint64_t pulls = given < count ? given + 1 : given;
    if (is_wanted(recording))
        while (is_wanted_again(recording, clk_record_pulls(&recording->record, 0, moment, pulls)))
            ;
}

void close_recording(struct recording *recording, int is_drained) {
    if (!recording->file)
        return;
    if (is_drained && is_wanted(recording))
        while (is_wanted_again(recording, clk_record_drain(&recording->record, 0)))
            ;
    write_lines(recording);
    stop_unless_stored(recording->file, recording->name);
    fclose(recording->file);
    if (recording->is_full)
        complain("%s: it ends before the run does, with %u lines", recording->name, recording->record.lines);
}
