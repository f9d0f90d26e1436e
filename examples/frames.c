/* Replays a recording of the handheld logger, whose counter wraps and whose records arrive late, and prints its steps. Built by tools/example. */
#include "ndezulangi.h"
#include <inttypes.h>
#include <stdio.h>

/* At most three steps and one for each unbroken run of ticks, of which there may be four. */
#define BASE 3
#define GAPS 4
#define NUMBERS NDZ_NUMBERS_BASE(NDZ_LATE, BASE, GAPS)
#define BUCKETS (BASE + GAPS)

struct record {
    uint16_t counter;
    int32_t value;
};

/* A relay that closes, in millivolts, with the two-reading drop that a good one shows. The counter wraps from 65535 to 0; some records arrive behind
 * a later one, the first of all among them, and one arrives twice. */
static const struct record relay[] = {
    {65531, 61}, {65530, -3}, {65532, 55}, {65533, 60}, {65535, 12050}, {65534, 12041}, {0, 12045}, {1, 12048},
    {3, 7410},   {2, 7390},   {1, 12048},  {4, 12047},  {6, 12049},     {5, 12051},     {7, 12050},
};
#define RECORDS (sizeof relay / sizeof relay[0])

/* Low byte first. */
static void write_record(uint8_t *out, struct record record)
{
    out[0] = (uint8_t)(record.counter & 255);
    out[1] = (uint8_t)(record.counter >> 8);
    for (int i = 0; i < 4; i++)
        out[2 + i] = (uint8_t)((uint32_t)record.value >> 8 * i & 255);
}

/* Says why a call was refused, and whether it was. */
static int refused(const char *call, uint32_t refusal)
{
    if (refusal != 0)
        printf("%s: %s\n", call, ndz_refusal_text(refusal));
    return refusal != 0;
}

int main(void)
{
    /* A replay is late, whatever kind is named. */
    const ndz_settings settings = {NDZ_LATE, BASE, GAPS, NDZ_BY_BASE, NDZ_FIRST_EDITION};
    uint8_t recording[NDZ_FRAME_BYTES * RECORDS];
    int64_t room[NUMBERS];
    ndz_bucket row[BUCKETS];

    for (size_t i = 0; i < RECORDS; i++)
        write_record(recording + NDZ_FRAME_BYTES * i, relay[i]);

    /* Without its last byte it is no recording. */
    refused("replay", ndz_replay(settings, recording, sizeof recording - 1, room, NUMBERS).refusal);

    ndz_replayed replayed = ndz_replay(settings, recording, sizeof recording, room, NUMBERS);
    if (refused("replay", replayed.refusal))
        return 1;
    printf("%" PRIu64 " records accepted, %" PRIu64 " refused\n", replayed.accepted, replayed.refused);

    /* The trace goes on: the record that arrived first has the tick 32768, so that the counter 8 is 13 ticks later. */
    ndz_state state = replayed.state;
    if (refused("late", ndz_take(&state, ndz_late(state, room, NUMBERS, 32768 + 13, 12046))))
        return 1;

    ndz_written shown = ndz_row(state, room, NUMBERS, row, BUCKETS);
    if (refused("row", shown.refusal))
        return 1;
    for (size_t i = 0; i < shown.buckets; i++)
        printf("%" PRIu32 " %" PRIu32 " %" PRId32 " %" PRId32 "\n", row[i].start, row[i].count, row[i].least, row[i].largest);
    return 0;
}
