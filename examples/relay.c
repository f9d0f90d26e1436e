/* Opens a trace, feeds it, looks a tick up, asks where it first goes over, saves it, loads it into another room and prints its row. Built and run by tools/example. */
#include "ndezulangi.h"
#include <inttypes.h>
#include <stdio.h>

#define STEPS 2
#define NUMBERS NDZ_NUMBERS(NDZ_IN_ORDER, STEPS, 0)
#define BUCKETS (2 * STEPS)

/* Says which call was refused and why, and whether it was. */
static int refused(const char *call, uint32_t refusal)
{
    if (refusal != 0)
        printf("%s: %s\n", call, ndz_refusal_text(refusal));
    return refusal != 0;
}

int main(void)
{
    /* A relay's coil voltage in millivolts, with the two-reading drop that a good one shows. */
    static const int32_t relay[] = {12040, 12050, 12045, 12050, 12048, 7390, 7410, 12047, 12051, 12049, 60, 55, 62, 58};
    const ndz_settings settings = {NDZ_IN_ORDER, STEPS, 0, NDZ_BY_STEPS, NDZ_FIRST_EDITION};
    int64_t room[NUMBERS], other_room[NUMBERS];
    ndz_bucket row[BUCKETS];
    uint8_t file[NDZ_RECORD_BYTES * BUCKETS];
    ndz_state state, other;

    if (refused("open", ndz_take(&state, ndz_open(settings, room, NUMBERS))))
        return 1;
    for (size_t i = 0; i < sizeof relay / sizeof relay[0]; i++)
        if (refused("next", ndz_take(&state, ndz_next(state, room, NUMBERS, relay[i]))))
            return 1;
    printf("%" PRIu64 " readings in %" PRIu64 " steps\n", state.readings, state.used);

    ndz_found drop = ndz_lookup(state, room, NUMBERS, 5);
    if (refused("lookup", drop.refusal))
        return 1;
    printf("tick 5: level %" PRId32 ", error %" PRIu32 ", %" PRId32 " to %" PRId32 "\n", drop.level, drop.error, drop.least, drop.largest);

    /* After the drop, where is the coil first back at 12 V or above? A bucket that begins before tick 5 and reaches it would count too. */
    ndz_hit back = ndz_first_over(state, room, NUMBERS, 5, NDZ_LAST_TICK, 12000);
    if (refused("first over", back.refusal))
        return 1;
    if (back.found)
        printf("from tick 5 on, 12000 or above: first in bucket %" PRIu64 ", from tick %" PRIu32 "\n", back.index, back.start);
    else
        printf("from tick 5 on, 12000 or above: nowhere\n");

    /* A reading with a tick does not fit a trace in order: the state at hand stays. */
    refused("late", ndz_take(&state, ndz_late(state, room, NUMBERS, 99, 0)));

    ndz_written saved = ndz_save(state, room, NUMBERS, file, sizeof file);
    if (refused("save", saved.refusal))
        return 1;
    if (refused("load", ndz_take(&other, ndz_load(settings, file, NDZ_RECORD_BYTES * saved.buckets, other_room, NUMBERS))))
        return 1;

    ndz_written shown = ndz_row(other, other_room, NUMBERS, row, BUCKETS);
    if (refused("row", shown.refusal))
        return 1;
    for (size_t i = 0; i < shown.buckets; i++)
        printf("%" PRIu32 " %" PRIu32 " %" PRId32 " %" PRId32 "\n", row[i].start, row[i].count, row[i].least, row[i].largest);
    return 0;
}
