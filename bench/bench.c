/* Times the library and plain C on the same readings in one run, and fails where they differ in an answer or a number of the room. */
#include "plain.h"
#include "wave.h"
#include <inttypes.h>
#include <string.h>

#define NUMBERS NDZ_NUMBERS(NDZ_LATE, NDZ_MOST_STEPS, NDZ_MOST_GAPS)

typedef ndz_answer (*next_call)(ndz_state, int64_t *, size_t, int32_t);
typedef ndz_answer (*late_call)(ndz_state, int64_t *, size_t, uint32_t, int32_t);
typedef ndz_replayed (*replay_call)(ndz_settings, const uint8_t *, size_t, int64_t *, size_t);

/* bench/against compiles this over earlier headers too. Those up to version 0.8 know no edition, and what they do is the first. */
static ndz_settings in_edition(uint64_t edition, ndz_settings settings)
{
#ifdef NDZ_SECOND_EDITION
    settings.edition = edition;
#else
    (void)edition;
#endif
    return settings;
}

static const ndz_settings most = {.kind = NDZ_LATE, .size = NDZ_MOST_STEPS, .gaps = NDZ_MOST_GAPS};

enum { GROWN = 391, BURST = 64 }; /* the ticks of each stretch in the full table, and the readings of a burst over it */

static int64_t library_room[NUMBERS], plain_room[NUMBERS], full_room[NUMBERS];
static ndz_state full;

/* Late readings grow `many` stretches, from the one numbered `first` on, by one reading of each in turn: each stretch by its ticks from `from` on, with the
 * values of the numbers from `value` on; far from its stretch's reading before, by turns below and above all others, where `apart` is set; all the same where
 * `flat` is. */
typedef struct {
    uint32_t first, many, from, value;
    int apart, flat;
} stretches;

/* All of them: 4,096 ticks apart at least. */
static const stretches all = {.many = NDZ_MOST_GAPS}, all_flat = {.many = NDZ_MOST_GAPS, .flat = 1};

static uint32_t tick_of(const stretches *grown, uint32_t turn)
{
    return (grown->first + turn % grown->many) * 65536 + grown->from + turn / grown->many;
}

static int32_t value_of(const stretches *grown, uint32_t turn)
{
    int32_t away = turn / grown->many % 2 ? 30000 : -30000;
    if (grown->flat)
        return FLAT;
    return value_at(grown->value + turn) + (grown->apart ? away : 0);
}

static double feed_next(next_call call, ndz_state *state, int64_t *room, size_t numbers, int flat, uint32_t readings)
{
    double begun = now();
    for (uint32_t i = 0; i < readings; i++) {
        ndz_answer a = call(*state, room, numbers, flat ? FLAT : value_at(i));
        if (a.refusal)
            fail("a reading is refused");
        *state = a.state;
    }
    return now() - begun;
}

static double feed_late(late_call call, ndz_state *state, int64_t *room, size_t numbers, const stretches *grown, uint32_t readings)
{
    double begun = now();
    for (uint32_t i = 0; i < readings; i++) {
        ndz_answer a = call(*state, room, numbers, tick_of(grown, i), value_of(grown, i));
        if (a.refusal)
            fail("a late reading is refused");
        *state = a.state;
    }
    return now() - begun;
}

/* ---- the logger's recordings: of each 32 ticks the first eight come last, together, and every thousandth record comes twice */

static uint32_t tick_of_frame(uint32_t turn)
{
    uint32_t place = turn - turn / 1000;
    return (place & ~31u) + (place + 8) % 32;
}

static void make_frames(uint8_t *recording, uint32_t frames)
{
    for (uint32_t i = 0; i < frames; i++) {
        uint32_t tick = tick_of_frame(i), value = (uint32_t)value_at(tick);
        uint8_t *frame = recording + (size_t)NDZ_FRAME_BYTES * i;
        frame[0] = (uint8_t)tick;
        frame[1] = (uint8_t)(tick >> 8);
        for (int byte = 0; byte < 4; byte++)
            frame[2 + byte] = (uint8_t)(value >> 8 * byte);
    }
}

static double replay(replay_call call, ndz_replayed *answer, ndz_settings settings, const uint8_t *recording, uint32_t frames, int64_t *room, size_t numbers)
{
    double begun = now();
    *answer = call(settings, recording, (size_t)NDZ_FRAME_BYTES * frames, room, numbers);
    return now() - begun;
}

/* The same by a reading at a time, where the caller makes the ticks. */
static double feed_frames(late_call call, ndz_replayed *answer, ndz_state state, const uint8_t *recording, uint32_t frames, int64_t *room, size_t numbers)
{
    double begun = now();
    uint32_t newest = 32768, newest_counter = 0;
    *answer = (ndz_replayed){.refusal = 0};
    for (uint32_t i = 0; i < frames; i++) {
        const uint8_t *frame = recording + (size_t)NDZ_FRAME_BYTES * i;
        uint32_t counter = frame[0] | (uint32_t)frame[1] << 8;
        uint32_t value = frame[2] | (uint32_t)frame[3] << 8 | (uint32_t)frame[4] << 16 | (uint32_t)frame[5] << 24;
        if (i == 0)
            newest_counter = counter;
        uint32_t tick = newest + ((counter - newest_counter + 32768) & 65535) - 32768;
        ndz_answer a = call(state, room, numbers, tick, (int32_t)value);
        if (a.refusal) {
            answer->refused++;
            continue;
        }
        state = a.state;
        answer->accepted++;
        if (tick > newest) {
            newest = tick;
            newest_counter = counter;
        }
    }
    answer->state = state;
    return now() - begun;
}

/* What the check alone takes: a lookup past the last tick checks state and room and is then refused. */
static double check_only(const ndz_state *state, const int64_t *room, size_t numbers, uint32_t turns)
{
    double begun = now();
    for (uint32_t i = 0; i < turns; i++)
        if (ndz_lookup(*state, room, numbers, NDZ_LAST_TICK + 1 + i % 2).refusal != NDZ_TICK)
            fail("the lookup past the last tick");
    return now() - begun;
}

static void same(const ndz_state *a, const ndz_state *b, size_t numbers)
{
    if (memcmp(a, b, sizeof *a) != 0 || memcmp(library_room, plain_room, numbers * sizeof *plain_room) != 0)
        fail("the traces");
}

static void line(const char *what, uint32_t turns, double library, double plain)
{
    printf("| %s | %.0f | %.0f | %.2f |\n", what, 1e9 * library / turns, 1e9 * plain / turns, library / plain);
    fflush(stdout);
}

/* Of the wave, or of a flat pin. */
static void readings(uint64_t edition, ndz_settings settings, int flat, uint32_t count, int unchecked)
{
    settings = in_edition(edition, settings);
    const stretches *grown = flat ? &all_flat : &all;
    size_t numbers = settings.by ? NDZ_NUMBERS_BASE(settings.kind, settings.size, settings.gaps) : NDZ_NUMBERS(settings.kind, settings.size, settings.gaps);
    int late = settings.kind == NDZ_LATE;
    ndz_state library = ndz_open(settings, library_room, numbers).state;
    ndz_state plain = plain_open(settings, plain_room, numbers).state;
    double of_library, of_plain;
    plain_checks = 1;
    if (late) {
        of_library = feed_late(ndz_late, &library, library_room, numbers, grown, count);
        of_plain = feed_late(plain_late, &plain, plain_room, numbers, grown, count);
    } else {
        of_library = feed_next(ndz_next, &library, library_room, numbers, flat, count);
        of_plain = feed_next(plain_next, &plain, plain_room, numbers, flat, count);
    }
    same(&library, &plain, numbers);
    char what[80];
    snprintf(what, sizeof what, "%s, %s = %" PRIu64 "%s%s%s", late ? "late" : "next", settings.by ? "C" : "B", settings.size, late ? ", K = 256" : "",
             flat ? ", flat" : "", edition == 1 ? "" : ", edition 2");
    line(what, count, of_library, of_plain);
    if (!unchecked)
        return;
    double check = check_only(&library, library_room, numbers, count);
    plain = plain_open(settings, plain_room, numbers).state;
    plain_checks = 0;
    of_plain = late ? feed_late(plain_late, &plain, plain_room, numbers, grown, count) : feed_next(plain_next, &plain, plain_room, numbers, flat, count);
    same(&library, &plain, numbers);
    snprintf(what, sizeof what, "the same without the check");
    line(what, count, of_library - check, of_plain);
}

/* The most buckets that there can be, of 100,096 readings. */
static void make_full(void)
{
    full = ndz_open(in_edition(1, most), full_room, NUMBERS).state;
    feed_late(ndz_late, &full, full_room, NUMBERS, &all, GROWN * all.many);
    if (full.used != NDZ_MOST_BUCKETS)
        fail("the table is not full");
}

/* Eight stretches go on growing, in bursts that each begin with the full table and have other values. A new bucket is nearly always merged with the one before
 * it; where it is far from that, two others are merged: behind it, or near the end of the table before it. */
static void bursts(const char *where, uint32_t first, int apart, uint32_t count)
{
    stretches grown = {.first = first, .many = 8, .from = GROWN, .apart = apart};
    double of_library = 0, of_plain = 0;
    plain_checks = 1;
    for (; grown.value < count; grown.value += BURST) {
        ndz_state library = full, plain = full;
        memcpy(library_room, full_room, sizeof full_room);
        memcpy(plain_room, full_room, sizeof full_room);
        of_library += feed_late(ndz_late, &library, library_room, NUMBERS, &grown, BURST);
        of_plain += feed_late(plain_late, &plain, plain_room, NUMBERS, &grown, BURST);
        same(&library, &plain, NUMBERS);
    }
    char what[80];
    snprintf(what, sizeof what, "late %s%s", where, apart ? ", merged elsewhere" : "");
    line(what, grown.value, of_library, of_plain);
}

static void same_replayed(const ndz_replayed *a, const ndz_replayed *b, size_t numbers)
{
    if (a->refusal != b->refusal || a->place != b->place || a->accepted != b->accepted || a->refused != b->refused)
        fail("the answers of a replay");
    same(&a->state, &b->state, numbers);
}

static void recordings(uint64_t edition, ndz_settings settings, uint32_t frames)
{
    settings = in_edition(edition, settings);
    size_t numbers = NDZ_NUMBERS(NDZ_LATE, settings.size, settings.gaps);
    uint8_t *recording = malloc((size_t)NDZ_FRAME_BYTES * frames + 1);
    if (recording == NULL)
        fail("no memory for a recording");
    make_frames(recording, frames);
    ndz_replayed library, plain, whole;
    double of_library = replay(ndz_replay, &library, settings, recording, frames, library_room, numbers);
    double of_plain = replay(plain_replay, &plain, settings, recording, frames, plain_room, numbers);
    if (library.refusal || library.accepted + library.refused != frames || library.refused != (frames - (frames > 0)) / 1000)
        fail("a replay");
    same_replayed(&library, &plain, numbers);
    char what[80];
    snprintf(what, sizeof what, "replay of %" PRIu32 " frames, B = %" PRIu64 ", K = %" PRIu64 "%s", frames, settings.size, settings.gaps,
             edition == 1 ? "" : ", edition 2");
    line(what, frames, of_library, of_plain);
    whole = library;
    static int64_t replayed_room[NUMBERS];
    memcpy(replayed_room, library_room, numbers * sizeof *replayed_room);
    plain_checks = 1;
    of_library = feed_frames(ndz_late, &library, ndz_open(settings, library_room, numbers).state, recording, frames, library_room, numbers);
    of_plain = feed_frames(plain_late, &plain, plain_open(settings, plain_room, numbers).state, recording, frames, plain_room, numbers);
    same_replayed(&library, &plain, numbers);
    same_replayed(&library, &whole, numbers);
    if (memcmp(library_room, replayed_room, numbers * sizeof *replayed_room) != 0)
        fail("the room of a replay and that of single readings");
    line("the same by single readings", frames, of_library, of_plain);
    free(recording);
}

static void files(uint32_t turns)
{
    size_t numbers = NUMBERS;
    ndz_state state = full;
    memcpy(library_room, full_room, sizeof full_room);
    uint8_t mine[NDZ_RECORD_BYTES * NDZ_MOST_BUCKETS], other[NDZ_RECORD_BYTES * NDZ_MOST_BUCKETS];
    memset(mine, 0, sizeof mine);
    memset(other, 0, sizeof other);
    double begun = now();
    for (uint32_t i = 0; i < turns; i++)
        if (ndz_save(state, library_room, numbers, mine, sizeof mine).buckets != state.used)
            fail("save");
    double of_library = now() - begun;
    begun = now();
    for (uint32_t i = 0; i < turns; i++)
        if (plain_save(state, library_room, numbers, other, sizeof other).buckets != state.used)
            fail("plain save");
    double of_plain = now() - begun;
    if (memcmp(mine, other, sizeof mine) != 0)
        fail("the files");
    char what[80];
    snprintf(what, sizeof what, "save of %" PRIu64 " buckets", state.used);
    line(what, turns, of_library, of_plain);
    size_t bytes = NDZ_RECORD_BYTES * state.used;
    begun = now();
    for (uint32_t i = 0; i < turns; i++)
        if (ndz_load(in_edition(1, most), mine, bytes, library_room, numbers).refusal)
            fail("load");
    of_library = now() - begun;
    begun = now();
    for (uint32_t i = 0; i < turns; i++)
        if (plain_load(in_edition(1, most), mine, bytes, plain_room, numbers).refusal)
            fail("plain load");
    of_plain = now() - begun;
    if (memcmp(library_room, plain_room, sizeof plain_room) != 0)
        fail("the loaded rooms");
    snprintf(what, sizeof what, "load of %" PRIu64 " buckets", state.used);
    line(what, turns, of_library, of_plain);
}

int main(int argc, char **argv)
{
    uint32_t count = argc > 1 ? (uint32_t)strtoul(argv[1], NULL, 10) : 2000000;
    printf("| call | library, ns | plain C, ns | ratio |\n|---|---|---|---|\n");
    const ndz_settings next = {.kind = NDZ_IN_ORDER, .size = 32}, late = {.kind = NDZ_LATE, .size = 32, .gaps = NDZ_MOST_GAPS};
    const ndz_settings replayed = {.kind = NDZ_LATE, .size = 32, .gaps = 16};
    readings(1, next, 0, count, 1);
    readings(1, most, 0, count, 1);
    make_full();
    for (int apart = 0; apart < 2; apart++) {
        bursts("near the start", 0, apart, count / 10);
        bursts("in the middle", 124, apart, count / 10);
        bursts("near the end", 248, apart, count / 10);
    }
    static const uint64_t sizes[] = {1, 4, 16, 64, 256};
    for (int i = 0; i < 5; i++)
        readings(1, (ndz_settings){.kind = NDZ_IN_ORDER, .size = sizes[i]}, 0, count / 10, 0);
    for (uint64_t base = 63; base <= 65; base++)
        readings(1, (ndz_settings){.kind = NDZ_IN_ORDER, .size = base, .by = NDZ_BY_BASE}, 0, count / 10, 0);
    recordings(1, replayed, count / 2);
    files(count / 100 + 1);
    readings(1, next, 1, count / 10, 0);
    readings(1, late, 0, count / 10, 0);
    readings(1, late, 1, count / 10, 0);
#ifdef NDZ_SECOND_EDITION
    /* Last, so that the rows before have their places where there is no second edition. */
    readings(2, next, 0, count, 1);
    readings(2, most, 0, count / 10, 0);
    readings(2, next, 1, count / 10, 0);
    readings(2, late, 0, count / 10, 0);
    readings(2, late, 1, count / 10, 0);
    recordings(2, replayed, count / 2);
#endif
    return 0;
}
