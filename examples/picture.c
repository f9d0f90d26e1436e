/* Draws the trace of docs/PICTURE.md with its caption and writes the picture, an SVG text, to standard output. Built and run by tools/example. */
#include "ndezulangi.h"
#include <stdio.h>

#define STEPS 1
#define GAPS 2
#define NUMBERS NDZ_NUMBERS(NDZ_LATE, STEPS, GAPS)

/* Says on standard error which call was refused and why, and whether it was: standard output is the picture's alone. */
static int refused(const char *call, uint32_t refusal)
{
    if (refusal != 0)
        fprintf(stderr, "%s: %s\n", call, ndz_refusal_text(refusal));
    return refusal != 0;
}

int main(void)
{
    static const uint32_t ticks[] = {0, 1, 2, 3, 6, 5, 4};
    static const int32_t values[] = {1, 4, 2, 9, 2, 3, 8};
    const size_t count = sizeof ticks / sizeof ticks[0];
    /* Shown as typed, whatever stands in it; the 0 behind it is not lent. */
    static const char caption[] = "relay <30> & \"ground\"";
    static uint8_t text[NDZ_PICTURE_BYTES];
    const ndz_settings settings = {NDZ_LATE, STEPS, GAPS, NDZ_BY_STEPS, NDZ_FIRST_EDITION};
    int64_t room[NUMBERS];
    ndz_state state;

    if (refused("open", ndz_take(&state, ndz_open(settings, room, NUMBERS))))
        return 1;
    ndz_fed fed = ndz_late_many(state, room, NUMBERS, ticks, count, values, count);
    if (refused("late", fed.refusal))
        return 1;
    ndz_drawn drawn = ndz_picture(fed.state, room, NUMBERS, (const uint8_t *)caption, sizeof caption - 1, text, sizeof text);
    if (refused("picture", drawn.refusal))
        return 1;
    return fwrite(text, 1, (size_t)drawn.bytes, stdout) == drawn.bytes ? 0 : 1;
}
