/* Obeys a script of calls from standard input over the exported functions, and writes after every call its answer, and every lent number and byte by
 * a checksum. The language is the one that second/src/command.rs describes. With --selftest it shows that a callee which touches more than it is
 * lent, or writes to what is const, ends it. */
#define _GNU_SOURCE
#include "calls.h"
#include "lend.h"
#include <stdio.h>
#include <stdlib.h>
#include <string.h>

enum { NUMBERS = 8192, BYTES = 65536, PLACES = BYTES / NDZ_RECORD_BYTES, LINE = 1024 };
enum { LIST = 4096 };
enum { FILE_BYTES = 655360, FILE_RECORDS = FILE_BYTES / NDZ_RECORD_BYTES, FILE_FRAMES = FILE_BYTES / NDZ_FRAME_BYTES };

/* ---- what the script has made so far */

static ndz_state state;
static ndz_tally tally;
static int64_t room[NUMBERS];
static uint8_t file[FILE_BYTES], output[BYTES];
static ndz_bucket row[PLACES];
static uint32_t ticks[LIST];
static int32_t values[LIST];
static size_t numbers_lent, bytes_lent;
static size_t bytes_drawn; /* by the last picture */

/* ---- the numbers of the command at hand */

enum name { KIND, BASE, GAPS, USED, RUNS, READINGS, EDITION, ACCEPTED, REFUSED, MERGES, LENT, PLACE, LENGTH, AT, FROM, TO, START, COUNT, LEAST, LARGEST, TICK, VALUE, FIRST, LAST, BAR, SIZE, BY, COUNTER, TICKS, VALUES, LETTERS, NAMES };

static const char *const names[NAMES] = {"kind", "base", "gaps", "used", "runs", "readings", "edition", "accepted", "refused", "merges", "numbers", "places",
    "bytes", "at", "from", "to", "start", "count", "least", "largest", "tick", "value", "first", "last", "bar", "size", "by", "counter", "ticks", "values", "letters"};

static uint64_t number[NAMES];

static size_t at_most(uint64_t wanted, size_t most)
{
    return wanted < most ? wanted : most;
}

/* ---- what is written */

static char written_text[1 << 16];
static size_t filled;

static void flush(void)
{
    if (fwrite(written_text, 1, filled, stdout) != filled)
        exit(4);
    filled = 0;
}

static void letter(char c)
{
    if (filled == sizeof written_text)
        flush();
    written_text[filled++] = c;
}

static void text(const char *words)
{
    while (*words)
        letter(*words++);
}

static void decimal(uint64_t value)
{
    char digits[20];
    int count = 0;
    do
        digits[count++] = (char)('0' + value % 10);
    while ((value /= 10) != 0);
    while (count > 0)
        letter(digits[--count]);
}

static void unsigned_number(uint64_t value)
{
    letter(' ');
    decimal(value);
}

static void signed_number(int64_t value)
{
    letter(' ');
    if (value < 0)
        letter('-');
    decimal(value < 0 ? 0 - (uint64_t)value : (uint64_t)value);
}

static uint64_t mixed(uint64_t sum, uint64_t value)
{
    sum ^= value;
    sum ^= sum << 13;
    sum ^= sum >> 7;
    sum ^= sum << 17;
    return sum + 11400714819323198485u;
}

static void checksum(const char *what, uint64_t sum)
{
    text(what);
    for (int digit = 15; digit >= 0; digit--)
        letter("0123456789abcdef"[sum >> 4 * digit & 15]);
}

static void show_room(void)
{
    uint64_t sum = numbers_lent;
    for (size_t i = 0; i < numbers_lent; i++)
        sum = mixed(sum, (uint64_t)room[i]);
    checksum(" room ", sum);
}

static void show_bytes(const char *what, const uint8_t *bytes, size_t count)
{
    uint64_t sum = count;
    for (size_t i = 0; i < count; i++)
        sum = mixed(sum, bytes[i]);
    checksum(what, sum);
}

static void show_row(size_t places)
{
    uint64_t sum = 4 * places;
    for (size_t i = 0; i < places; i++) {
        sum = mixed(mixed(sum, row[i].start), row[i].count);
        sum = mixed(mixed(sum, (uint64_t)(int64_t)row[i].least), (uint64_t)(int64_t)row[i].largest);
    }
    checksum(" row ", sum);
}

static void show_state(ndz_state of)
{
    unsigned_number(of.kind);
    unsigned_number(of.base);
    unsigned_number(of.gaps);
    unsigned_number(of.used);
    unsigned_number(of.runs);
    unsigned_number(of.readings);
    unsigned_number(of.edition);
}

static void refused(uint32_t refusal, uint64_t place)
{
    text(call_at_hand);
    unsigned_number(refusal);
    unsigned_number(place);
}

/* ---- the calls */

static int64_t *lend_room(void)
{
    return lend(room_part, room, numbers_lent * sizeof *room);
}

static const int64_t *lend_const_room(void)
{
    return lend_const(room_part, room, numbers_lent * sizeof *room);
}

static ndz_settings settings(void)
{
    return (ndz_settings){.kind = number[KIND], .size = number[SIZE], .gaps = number[GAPS], .by = number[BY], .edition = number[EDITION]};
}

static void answered(ndz_answer answer)
{
    take_back(room_part, room);
    refused(answer.refusal, answer.place);
    show_state(answer.state);
    show_room();
}

static void obey_open(void)
{
    ndz_answer answer = ndz_open(settings(), lend_room(), numbers_lent);
    answered(answer);
    ndz_take(&state, answer);
    letter('\n');
}

static void obey_load(void)
{
    const uint8_t *lent = lend_const(file_part, file, bytes_lent);
    ndz_answer answer = ndz_load(settings(), lent, bytes_lent, lend_room(), numbers_lent);
    take_back(file_part, file);
    answered(answer);
    ndz_take(&state, answer);
    show_bytes(" file ", file, bytes_lent);
    letter('\n');
}

replayer *replay = ndz_replay;

static void obey_replay(void)
{
    const uint8_t *lent = lend_const(file_part, file, bytes_lent);
    ndz_replayed answer = replay(settings(), lent, bytes_lent, lend_room(), numbers_lent);
    take_back(file_part, file);
    take_back(room_part, room);
    refused(answer.refusal, answer.place);
    show_state(answer.state);
    unsigned_number(answer.accepted);
    unsigned_number(answer.refused);
    show_room();
    if (answer.refusal == 0)
        state = answer.state;
    show_bytes(" file ", file, bytes_lent);
    letter('\n');
}

/* A reading that is refused answers the state that was given; the script goes on with that answer too. */
static void read_on(ndz_answer answer)
{
    answered(answer);
    state = answer.state;
}

static void obey_next(void)
{
    read_on(ndz_next(state, lend_room(), numbers_lent, (int32_t)number[VALUE]));
    letter('\n');
}

static void obey_late(void)
{
    read_on(ndz_late(state, lend_room(), numbers_lent, (uint32_t)number[TICK], (int32_t)number[VALUE]));
    letter('\n');
}

feeder *late_many = ndz_late_many;

/* The answered state is the one after the accepted readings, or the given one. */
static void fed(ndz_fed answer)
{
    take_back(room_part, room);
    refused(answer.refusal, answer.place);
    show_state(answer.state);
    unsigned_number(answer.accepted);
    show_room();
    state = answer.state;
}

static void obey_next_many(void)
{
    size_t from = at_most(number[FROM], LIST), count = at_most(number[VALUES], LIST - from);
    const int32_t *lent = lend_const(values_part, values + from, count * sizeof *values);
    fed(ndz_next_many(state, lend_room(), numbers_lent, lent, count));
    take_back(values_part, values + from);
    letter('\n');
}

static void obey_late_many(void)
{
    size_t from = at_most(number[FROM], LIST), most = LIST - from;
    size_t tick_count = at_most(number[TICKS], most), value_count = at_most(number[VALUES], most);
    const uint32_t *lent_ticks = lend_const(ticks_part, ticks + from, tick_count * sizeof *ticks);
    const int32_t *lent_values = lend_const(values_part, values + from, value_count * sizeof *values);
    fed(late_many(state, lend_room(), numbers_lent, lent_ticks, tick_count, lent_values, value_count));
    take_back(ticks_part, ticks + from);
    take_back(values_part, values + from);
    letter('\n');
}

static void obey_lookup(void)
{
    ndz_found found = ndz_lookup(state, lend_const_room(), numbers_lent, (uint32_t)number[TICK]);
    take_back(room_part, room);
    refused(found.refusal, found.place);
    signed_number(found.level);
    unsigned_number(found.error);
    signed_number(found.least);
    signed_number(found.largest);
    show_room();
    letter('\n');
}

static void obey_over(void)
{
    ndz_hit hit = ndz_first_over(state, lend_const_room(), numbers_lent, (uint32_t)number[FIRST], (uint32_t)number[LAST], (int32_t)number[BAR]);
    take_back(room_part, room);
    refused(hit.refusal, hit.place);
    unsigned_number(hit.found);
    unsigned_number(hit.index);
    unsigned_number(hit.start);
    show_room();
    letter('\n');
}

static void wrote(ndz_written answer)
{
    take_back(room_part, room);
    refused(answer.refusal, answer.place);
    unsigned_number(answer.buckets);
    show_room();
}

callee *save = ndz_save;

static void obey_save(void)
{
    size_t count = at_most(number[LENGTH], BYTES);
    uint8_t *lent = lend(output_part, output, count);
    ndz_written answer = save(state, lend_const_room(), numbers_lent, lent, count);
    take_back(output_part, output);
    wrote(answer);
    show_bytes(" output ", output, count);
    letter('\n');
}

drawer *picture = ndz_picture;

static void obey_picture(void)
{
    size_t from = at_most(number[FROM], FILE_BYTES), letters = at_most(number[LETTERS], FILE_BYTES - from);
    size_t count = at_most(number[LENGTH], BYTES);
    const uint8_t *caption = lend_const(caption_part, file + from, letters);
    uint8_t *lent = lend(output_part, output, count);
    ndz_drawn drawn = picture(state, lend_const_room(), numbers_lent, caption, letters, lent, count);
    take_back(output_part, output);
    take_back(caption_part, file + from);
    take_back(room_part, room);
    refused(drawn.refusal, drawn.place);
    unsigned_number(drawn.bytes);
    bytes_drawn = at_most(drawn.bytes, BYTES);
    show_room();
    show_bytes(" caption ", file + from, letters);
    show_bytes(" output ", output, count);
    letter('\n');
}

static void obey_row(void)
{
    size_t places = at_most(number[PLACE], PLACES);
    ndz_bucket *lent = lend(row_part, row, places * sizeof *row);
    ndz_written answer = ndz_row(state, lend_const_room(), numbers_lent, lent, places);
    take_back(row_part, row);
    wrote(answer);
    show_row(places);
    letter('\n');
}

static void told(ndz_answer answer)
{
    take_back(tally_part, &tally);
    read_on(answer);
    text(" tally");
    unsigned_number(tally.accepted);
    unsigned_number(tally.refused);
    unsigned_number(tally.merges);
    letter('\n');
}

static void obey_next_told(void)
{
    ndz_tally *lent = lend(tally_part, &tally, sizeof tally);
    told(ndz_next_tallied(state, lend_room(), numbers_lent, (int32_t)number[VALUE], lent));
}

static void obey_late_told(void)
{
    ndz_tally *lent = lend(tally_part, &tally, sizeof tally);
    told(ndz_late_tallied(state, lend_room(), numbers_lent, (uint32_t)number[TICK], (int32_t)number[VALUE], lent));
}

static void obey_worst(void)
{
    ndz_worst_error answer = ndz_worst(state, lend_const_room(), numbers_lent);
    take_back(room_part, room);
    refused(answer.refusal, answer.place);
    unsigned_number(answer.error);
    show_room();
    letter('\n');
}

static ndz_bucket bucket(void)
{
    return (ndz_bucket){(uint32_t)number[START], (uint32_t)number[COUNT], (int32_t)number[LEAST], (int32_t)number[LARGEST]};
}

static void obey_level(void)
{
    text(call_at_hand);
    signed_number(ndz_level(bucket()));
    letter('\n');
}

static void obey_error(void)
{
    text(call_at_hand);
    unsigned_number(ndz_error(bucket()));
    letter('\n');
}

static void obey_show(void)
{
    text(call_at_hand);
    show_state(state);
    for (size_t i = 0; i < numbers_lent; i++)
        signed_number(room[i]);
    letter('\n');
}

static void obey_print(void)
{
    for (size_t i = 0; i < bytes_drawn; i++)
        letter((char)output[i]);
}

/* ---- changes to what calls are given */

static void obey_state(void)
{
    state = (ndz_state){number[KIND], number[BASE], number[GAPS], number[USED], number[RUNS], number[READINGS], number[EDITION]};
}

static void obey_tally(void)
{
    tally = (ndz_tally){(uint32_t)number[ACCEPTED], (uint32_t)number[REFUSED], (uint32_t)number[MERGES]};
}

static void obey_room(void)
{
    numbers_lent = at_most(number[LENT], NUMBERS);
}

static void obey_fill(void)
{
    for (size_t i = 0; i < numbers_lent; i++)
        room[i] = (int64_t)number[VALUE];
}

static void obey_set(void)
{
    if (number[AT] < NUMBERS)
        room[number[AT]] = (int64_t)number[VALUE];
}

static void obey_slot(void)
{
    if (number[AT] < NUMBERS / NDZ_SLOT)
        for (size_t i = 0; i < NDZ_SLOT; i++)
            room[NDZ_SLOT * number[AT] + i] = (int64_t)number[START + i];
}

static void obey_file(void)
{
    bytes_lent = at_most(number[LENGTH], FILE_BYTES);
}

static void obey_byte(void)
{
    if (number[AT] < FILE_BYTES)
        file[number[AT]] = (uint8_t)number[VALUE];
}

static void obey_record(void)
{
    if (number[AT] < FILE_RECORDS)
        for (size_t i = 0; i < NDZ_RECORD_BYTES; i++)
            file[NDZ_RECORD_BYTES * number[AT] + i] = (uint8_t)(number[START + i / 4] >> 8 * (i % 4));
}

static void obey_frame(void)
{
    if (number[AT] < FILE_FRAMES)
        for (size_t i = 0; i < NDZ_FRAME_BYTES; i++)
            file[NDZ_FRAME_BYTES * number[AT] + i] = (uint8_t)(i < 2 ? number[COUNTER] >> 8 * i : number[VALUE] >> 8 * (i - 2));
}

static void obey_copy(void)
{
    const size_t most = FILE_RECORDS + 1;
    size_t from = at_most(number[FROM], most), to = at_most(number[TO], most), count = at_most(number[COUNT], most);
    if (from + count <= FILE_RECORDS && to + count <= FILE_RECORDS)
        memmove(file + NDZ_RECORD_BYTES * to, file + NDZ_RECORD_BYTES * from, NDZ_RECORD_BYTES * count);
}

static void obey_take(void)
{
    bytes_lent = at_most(number[LENGTH], BYTES);
    memcpy(file, output, bytes_lent);
}

static void obey_blank(void)
{
    size_t count = at_most(number[LENGTH], BYTES);
    memset(output, (int)(number[VALUE] & 255), count);
    memset(row, (int)(number[VALUE] & 255), count);
}

static void obey_reading(void)
{
    if (number[AT] < LIST) {
        ticks[number[AT]] = (uint32_t)number[TICK];
        values[number[AT]] = (int32_t)number[VALUE];
    }
}

/* ---- the language */

static const struct {
    const char *word;
    void (*obey)(void);
} words[] = {
    {"set", obey_set},
    {"fill", obey_fill},
    {"load", obey_load},
    {"room", obey_room},
    {"byte", obey_byte},
    {"late", obey_late},
    {"next", obey_next},
    {"save", obey_save},
    {"blank", obey_blank},
    {"lookup", obey_lookup},
    {"over", obey_over},
    {"open", obey_open},
    {"row", obey_row},
    {"picture", obey_picture},
    {"print", obey_print},
    {"state", obey_state},
    {"record", obey_record},
    {"frame", obey_frame},
    {"replay", obey_replay},
    {"slot", obey_slot},
    {"file", obey_file},
    {"copy", obey_copy},
    {"take", obey_take},
    {"tally", obey_tally},
    {"show", obey_show},
    {"worst", obey_worst},
    {"level", obey_level},
    {"error", obey_error},
    {"nexttold", obey_next_told},
    {"latetold", obey_late_told},
    {"nextmany", obey_next_many},
    {"latemany", obey_late_many},
    {"reading", obey_reading},
};

static void not_a_command(const char *line)
{
    flush();
    fprintf(stderr, "host: line %llu is no command: %s\n", (unsigned long long)line_at_hand, line);
    exit(2);
}

static void read_number(char *pair)
{
    char *value = strchr(pair, '=');
    if (value == NULL)
        not_a_command(pair);
    *value++ = 0;
    int negative = *value == '-';
    uint64_t read = 0;
    for (char *digit = value + negative; *digit; digit++)
        read = 10 * read + (uint64_t)(*digit - '0');
    for (int name = 0; name < NAMES; name++)
        if (strcmp(names[name], pair) == 0) {
            number[name] = negative ? 0 - read : read;
            return;
        }
    not_a_command(pair);
}

/* What a name that is not given stands for. */
static void begin(void)
{
    const uint64_t at_hand[] = {state.kind, state.base, state.gaps, state.used, state.runs, state.readings, state.edition, tally.accepted, tally.refused, tally.merges};
    memset(number, 0, sizeof number);
    memcpy(number, at_hand, sizeof at_hand);
}

/* Where the answer of the call will stand: a field that the callee leaves out is not what the call before left there. */
__attribute__((noinline)) static void soil(void)
{
    uint8_t below[1024];
    memset(below, 92, sizeof below);
    __asm__ volatile("" : : "r"(below) : "memory");
}

void obey(char *line)
{
    char *rest;
    char *word = strtok_r(line, " \n", &rest);
    if (word == NULL || *word == '#')
        return;
    begin();
    for (char *pair; (pair = strtok_r(NULL, " \n", &rest)) != NULL;)
        read_number(pair);
    for (size_t i = 0; i < sizeof words / sizeof words[0]; i++)
        if (strcmp(words[i].word, word) == 0) {
            call_at_hand = words[i].word;
            soil();
            words[i].obey();
            return;
        }
    not_a_command(word);
}

int main(int count, char **arguments)
{
    static char line[LINE];
    make_parts();
    if (count > 1 && strcmp(arguments[1], "--selftest") == 0)
        return selftest();
    while (fgets(line, sizeof line, stdin) != NULL) {
        line_at_hand++;
        obey(line);
    }
    flush();
    return 0;
}
