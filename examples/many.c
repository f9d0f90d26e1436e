/* Hands over many readings at one call, in order and late, goes on after the one that is refused, and keeps a flat pin in both editions. Built and run by
 * tools/example. */
#include "ndezulangi.h"
#include <inttypes.h>
#include <stdio.h>

/* At most four steps, late one more for each unbroken run of ticks, of which there may be two. */
#define BASE 4
#define GAPS 2
#define NUMBERS NDZ_NUMBERS_BASE(NDZ_LATE, BASE, GAPS) /* more than in order needs */
#define BUCKETS (BASE + GAPS)
#define COUNT(array) (sizeof(array) / sizeof(array)[0])

/* Says what became of the readings, goes on with the state after the accepted ones, and answers how many these are. */
static size_t fed(ndz_state *state, ndz_fed answer)
{
    printf("%" PRIu64 " accepted, %" PRIu64 " in all", answer.accepted, answer.state.readings);
    if (answer.refusal != 0)
        printf("; the next: %s", ndz_refusal_text(answer.refusal));
    printf("\n");
    *state = answer.state;
    return (size_t)answer.accepted;
}

static void print_row(ndz_state state, const int64_t *room)
{
    ndz_bucket row[BUCKETS];
    ndz_written shown = ndz_row(state, room, NUMBERS, row, BUCKETS);
    for (size_t i = 0; i < shown.buckets; i++)
        printf("%" PRIu32 " %" PRIu32 " %" PRId32 " %" PRId32 "\n", row[i].start, row[i].count, row[i].least, row[i].largest);
}

int main(void)
{
    /* A relay's coil voltage in millivolts, with the two-reading drop that a good one shows. */
    static const int32_t relay[] = {60, 55, 62, 58, 12040, 12050, 12045, 12048, 7390, 7410, 12047, 12051, 12049, 12050};
    /* The same by ticks, but for the ticks 4 to 7, which the wireless still holds back. */
    static const uint32_t ticks[] = {0, 1, 2, 3, 8, 9, 12, 11, 10};
    static const int32_t values[] = {60, 55, 62, 58, 7390, 7410, 12049, 12051, 12047};
    static const uint32_t held_back[] = {4, 5, 6, 7};
    /* A pin on which nothing happens. */
    static const int32_t flat[] = {12050, 12050, 12050, 12050, 12050, 12050, 12050, 12050};

    ndz_settings settings = {NDZ_IN_ORDER, BASE, 0, NDZ_BY_BASE, NDZ_FIRST_EDITION};
    int64_t room[NUMBERS];
    ndz_state state;

    /* An upload in order, at one call. */
    if (ndz_take(&state, ndz_open(settings, room, NUMBERS)) != 0)
        return 1;
    fed(&state, ndz_next_many(state, room, NUMBERS, relay, COUNT(relay)));
    print_row(state, room);

    /* A late one: tick 12 would begin a third run, so nothing from it on is taken. */
    settings.kind = NDZ_LATE;
    settings.gaps = GAPS;
    if (ndz_take(&state, ndz_open(settings, room, NUMBERS)) != 0)
        return 1;
    size_t done = fed(&state, ndz_late_many(state, room, NUMBERS, ticks, COUNT(ticks), values, COUNT(values)));

    /* What was held back makes one run of the two; then the rest goes on from the reading that was refused. */
    fed(&state, ndz_late_many(state, room, NUMBERS, held_back, COUNT(held_back), relay + 4, COUNT(held_back)));
    done += fed(&state, ndz_late_many(state, room, NUMBERS, ticks + done, COUNT(ticks) - done, values + done, COUNT(values) - done));
    print_row(state, room);

    /* A tick that has its reading is refused, and leaves the trace as it is. */
    fed(&state, ndz_late_many(state, room, NUMBERS, ticks, COUNT(ticks), values, COUNT(values)));

    /* Of a flat pin any two neighbours may become one step. The first edition takes those that start first, so that one step swallows the left side; the
     * second those that are the fewest ticks together. */
    settings.kind = NDZ_IN_ORDER;
    for (settings.edition = NDZ_FIRST_EDITION; settings.edition <= NDZ_SECOND_EDITION; settings.edition++) {
        if (ndz_take(&state, ndz_open(settings, room, NUMBERS)) != 0)
            return 1;
        fed(&state, ndz_next_many(state, room, NUMBERS, flat, COUNT(flat)));
        print_row(state, room);
    }
    return done == COUNT(ticks) ? 0 : 1;
}
