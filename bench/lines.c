/* What the listing program does for a trace in order with B = 32, in plain C: one reading a line, and no line that names the steps; many readings are taken at
 * one call, in the first edition, which is the listing's. Then the steps. Errors end it. */
#include "plain_many.h"
#include <inttypes.h>
#include <stdio.h>

#define STEPS 32
#define NUMBERS NDZ_NUMBERS(NDZ_IN_ORDER, STEPS, 0)

static char input[65536];
static size_t have, at;
static int32_t values[4096];
static size_t count;

static int next_byte(void)
{
    if (at == have) {
        have = fread(input, 1, sizeof input, stdin);
        at = 0;
        if (have == 0)
            return EOF;
    }
    return (unsigned char)input[at++];
}

static int64_t room[NUMBERS];
static ndz_state state;

static int take(void)
{
    ndz_fed fed = plain_32(state, room, NUMBERS, values, count);
    state = fed.state;
    count = 0;
    return fed.refusal == 0;
}

int main(void)
{
    state = plain_open((ndz_settings){.kind = NDZ_IN_ORDER, .size = STEPS, .edition = NDZ_FIRST_EDITION}, room, NUMBERS).state;
    for (int byte = next_byte(); byte != EOF; byte = next_byte()) {
        int negative = byte == '-', digits = 0;
        int64_t value = 0;
        if (negative)
            byte = next_byte();
        for (; byte >= '0' && byte <= '9' && digits < 10; byte = next_byte(), digits++)
            value = 10 * value + (byte - '0');
        if (negative)
            value = -value;
        if ((byte != '\n' && byte != EOF) || digits == 0 || value < INT32_MIN || value > INT32_MAX)
            return 1;
        values[count++] = (int32_t)value;
        if (count == sizeof values / sizeof *values && !take())
            return 1;
    }
    if (!take())
        return 1;
    int64_t worst = 0;
    for (uint64_t i = 0; i < state.used; i++) {
        const int64_t *b = room + NDZ_SLOT * i;
        int64_t sum = b[2] + b[3], level = (sum - (sum < 0)) / 2, error = b[3] - level > level - b[2] ? b[3] - level : level - b[2];
        if (error > worst)
            worst = error;
        printf("%" PRId64 " %" PRId64 " %" PRId64 " %" PRId64 " %" PRId64 "\n", b[0], b[1], b[2], b[3], level);
    }
    printf("total %" PRIu64 " %" PRIu64 " %" PRId64 "\n", state.readings, state.used, worst);
    return 0;
}
