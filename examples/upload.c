/* upload FILE: takes readings from standard input, one whole number a line, keeps them as at most 63 steps, saves these to FILE, loads them
 * again as another program would, and prints a line a step (start, count, least, largest, level) and the worst error.
 * The exit status is 0, or 1 where something is refused or cannot be read or written: standard error then says what, and where. The first line
 * that is refused ends the run, and nothing is saved. Built and run by tools/example. */
#include "ndezulangi.h"
#include <inttypes.h>
#include <stdio.h>

/* A tablet page has room for so many steps. */
#define BUCKETS 63
#define NUMBERS NDZ_NUMBERS_BASE(NDZ_IN_ORDER, BUCKETS, 0)
#define FILE_BYTES (NDZ_RECORD_BYTES * BUCKETS)

/* A file does not say what it was saved with: whoever loads it names the same settings, the edition among them. */
static const ndz_settings settings = {NDZ_IN_ORDER, BUCKETS, 0, NDZ_BY_BASE, NDZ_FIRST_EDITION};

static int failed(const char *where, const char *why)
{
    fprintf(stderr, "%s: %s\n", where, why);
    return 0;
}

/* ---- the readings */

enum line { READING, UNREADABLE, END };

/* The next line of standard input. A reading is any whole number of 32 bits. */
static enum line read_line(int32_t *value)
{
    int64_t number = 0;
    int byte = getchar(), negative = byte == '-', digits = 0;
    if (byte == EOF)
        return END;
    if (negative)
        byte = getchar();
    for (; byte >= '0' && byte <= '9'; byte = getchar(), digits = 1)
        if (number <= INT32_MAX)
            number = 10 * number + (byte - '0');
    if (byte == '\r')
        byte = getchar();
    if (negative)
        number = -number;
    if (!digits || (byte != '\n' && byte != EOF) || number < INT32_MIN || number > INT32_MAX)
        return UNREADABLE;
    *value = (int32_t)number;
    return READING;
}

/* Every line into the trace. */
static int feed(ndz_state *state, int64_t *room)
{
    for (uint64_t line = 1;; line++) {
        int32_t value;
        uint32_t refusal;
        char where[32];
        snprintf(where, sizeof where, "line %" PRIu64, line);
        switch (read_line(&value)) {
        case READING:
            refusal = ndz_take(state, ndz_next(*state, room, NUMBERS, value));
            if (refusal != 0)
                return failed(where, ndz_refusal_text(refusal));
            break;
        case UNREADABLE:
            return failed(where, "not a whole number from -2147483648 to 2147483647");
        case END:
            return ferror(stdin) ? failed(where, "cannot be read") : 1;
        }
    }
}

/* ---- the file */

static int save(const char *path, ndz_state state, const int64_t *room)
{
    uint8_t bytes[FILE_BYTES];
    ndz_written written = ndz_save(state, room, NUMBERS, bytes, sizeof bytes);
    if (written.refusal != 0)
        return failed("save", ndz_refusal_text(written.refusal));
    size_t length = NDZ_RECORD_BYTES * written.buckets;
    FILE *file = fopen(path, "wb");
    if (file == NULL)
        return failed(path, "cannot be written");
    int whole = fwrite(bytes, 1, length, file) == length;
    if (fclose(file) != 0 || !whole)
        return failed(path, "cannot be written");
    return 1;
}

/* A byte more than the longest file, so that a longer one is seen. */
static int load(const char *path, ndz_state *state, int64_t *room)
{
    uint8_t bytes[FILE_BYTES + 1];
    FILE *file = fopen(path, "rb");
    if (file == NULL)
        return failed(path, "cannot be read");
    size_t length = fread(bytes, 1, sizeof bytes, file);
    int broken = ferror(file);
    fclose(file);
    if (broken)
        return failed(path, "cannot be read");
    if (length > FILE_BYTES)
        return failed(path, "longer than any saved trace of these settings");
    ndz_answer answer = ndz_load(settings, bytes, length, room, NUMBERS);
    if (answer.refusal == NDZ_RECORD) {
        char where[32];
        snprintf(where, sizeof where, "record %" PRIu64, answer.place);
        return failed(where, ndz_refusal_text(answer.refusal));
    }
    if (ndz_take(state, answer) != 0)
        return failed(path, ndz_refusal_text(answer.refusal));
    return 1;
}

/* ---- the steps */

static int print(ndz_state state, const int64_t *room)
{
    ndz_bucket row[BUCKETS];
    ndz_written written = ndz_row(state, room, NUMBERS, row, BUCKETS);
    ndz_worst_error worst = ndz_worst(state, room, NUMBERS);
    if (written.refusal != 0)
        return failed("row", ndz_refusal_text(written.refusal));
    if (worst.refusal != 0)
        return failed("worst", ndz_refusal_text(worst.refusal));
    for (uint64_t i = 0; i < written.buckets; i++)
        printf("%" PRIu32 " %" PRIu32 " %" PRId32 " %" PRId32 " %" PRId32 "\n", row[i].start, row[i].count, row[i].least, row[i].largest,
               ndz_level(row[i]));
    printf("%" PRIu64 " readings in %" PRIu64 " steps, worst error %" PRIu32 "\n", state.readings, state.used, worst.error);
    return fflush(stdout) == 0 ? 1 : failed("standard output", "cannot be written");
}

int main(int argc, char **argv)
{
    int64_t room[NUMBERS], other_room[NUMBERS];
    ndz_state state, other;
    uint32_t refusal;
    if (argc != 2)
        return !failed("usage", "upload FILE");
    refusal = ndz_take(&state, ndz_open(settings, room, NUMBERS));
    if (refusal != 0)
        return !failed("open", ndz_refusal_text(refusal));
    return !(feed(&state, room) && save(argv[1], state, room) && load(argv[1], &other, other_room) && print(other, other_room));
}
