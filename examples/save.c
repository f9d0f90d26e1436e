/* save: reads a trace's lines from standard input, `steps B`, then `late K` where readings name their ticks, then a reading a line, and writes the saved
 * form of its buckets to standard output. Nothing is opened by default: the first line must name the steps. The edition is the first, whatever the lines
 * are: the saved pages of a catalogue stand beside its listings and pictures, whose programs have that edition, and those that are stored were made before
 * there was another. Numbers are read as sscanf reads them, which takes more than the listing program does. The exit status is 0, or 1 where something is
 * refused or cannot be read or written: standard error then says what, and nothing is written. Run by tools/rebuild. */
#include "ndezulangi.h"
#include <inttypes.h>
#include <stdio.h>

#define NUMBERS NDZ_NUMBERS(NDZ_LATE, NDZ_MOST_STEPS, NDZ_MOST_GAPS)

static int failed(const char *what, const char *why)
{
    fprintf(stderr, "save: %s: %s\n", what, why);
    return 1;
}

int main(void)
{
    static int64_t room[NUMBERS];
    static uint8_t bytes[NDZ_RECORD_BYTES * NDZ_MOST_BUCKETS];
    char line[80], behind;
    ndz_settings settings = {NDZ_IN_ORDER, 0, 0, NDZ_BY_STEPS, NDZ_FIRST_EDITION};
    ndz_state state;
    if (fgets(line, sizeof line, stdin) == NULL || sscanf(line, "steps %" SCNu64 " %c", &settings.size, &behind) != 1)
        return failed("the first line", "names no steps");
    int more = fgets(line, sizeof line, stdin) != NULL;
    if (more && sscanf(line, "late %" SCNu64 " %c", &settings.gaps, &behind) == 1) {
        settings.kind = NDZ_LATE;
        more = fgets(line, sizeof line, stdin) != NULL;
    }
    uint32_t refusal = ndz_take(&state, ndz_open(settings, room, NUMBERS));
    if (refusal != 0)
        return failed("open", ndz_refusal_text(refusal));
    for (; more; more = fgets(line, sizeof line, stdin) != NULL) {
        uint32_t tick;
        int32_t value;
        if (settings.kind == NDZ_LATE && sscanf(line, "%" SCNu32 " %" SCNd32 " %c", &tick, &value, &behind) == 2)
            refusal = ndz_take(&state, ndz_late(state, room, NUMBERS, tick, value));
        else if (settings.kind == NDZ_IN_ORDER && sscanf(line, "%" SCNd32 " %c", &value, &behind) == 1)
            refusal = ndz_take(&state, ndz_next(state, room, NUMBERS, value));
        else
            return failed(line, "cannot be read");
        if (refusal != 0)
            return failed(line, ndz_refusal_text(refusal));
    }
    if (ferror(stdin))
        return failed("standard input", "cannot be read");
    ndz_written written = ndz_save(state, room, NUMBERS, bytes, sizeof bytes);
    if (written.refusal != 0)
        return failed("save", ndz_refusal_text(written.refusal));
    size_t length = NDZ_RECORD_BYTES * written.buckets;
    if (fwrite(bytes, 1, length, stdout) != length || fflush(stdout) != 0)
        return failed("standard output", "cannot be written");
    return 0;
}
