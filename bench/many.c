/* many [READINGS] [TURNS]: times many readings at one call, by the library and by plain C in several ways, against single calls, in the first edition and then
 * in the second. All ways take turns, and of each the least time is told. Fails where any two differ in state, room or count. */
#include "plain_many.h"
#include "wave.h"
#include <inttypes.h>
#include <string.h>

#define NUMBERS NDZ_NUMBERS(NDZ_LATE, NDZ_MOST_STEPS, NDZ_MOST_GAPS)

typedef ndz_answer (*next_call)(ndz_state, int64_t *, size_t, int32_t);
typedef ndz_answer (*late_call)(ndz_state, int64_t *, size_t, uint32_t, int32_t);
typedef ndz_fed (*many_call)(ndz_state, int64_t *, size_t, const int32_t *, size_t);
typedef ndz_fed (*late_many_call)(ndz_state, int64_t *, size_t, const uint32_t *, size_t, const int32_t *, size_t);

static int32_t *values;
static uint32_t *ticks;
static uint32_t turns;

/* What a way left, from an empty trace on: the first way of a row is what the others are compared with. */
typedef struct {
    ndz_state state;
    int64_t room[NUMBERS];
} trace;

static trace first, other;

static size_t open_trace(trace *t, ndz_settings settings)
{
    size_t numbers = settings.by ? NDZ_NUMBERS_BASE(settings.kind, settings.size, settings.gaps) : NDZ_NUMBERS(settings.kind, settings.size, settings.gaps);
    memset(t, 0, sizeof *t);
    t->state = ndz_open(settings, t->room, numbers).state;
    return numbers;
}

static void same(const char *what)
{
    if (memcmp(&first, &other, sizeof first) != 0)
        fail(what);
}

static double by_single(next_call call, trace *t, ndz_settings settings, size_t count)
{
    size_t numbers = open_trace(t, settings);
    double begun = now();
    for (size_t i = 0; i < count; i++)
        if (ndz_take(&t->state, call(t->state, t->room, numbers, values[i])))
            fail("a reading is refused");
    return (now() - begun) / (double)count;
}

/* In calls of `size` readings. */
static double by_calls(many_call call, trace *t, ndz_settings settings, size_t count, size_t size)
{
    size_t numbers = open_trace(t, settings);
    double begun = now();
    for (size_t i = 0; i < count; i += size) {
        size_t part = count - i < size ? count - i : size;
        ndz_fed fed = call(t->state, t->room, numbers, values + i, part);
        if (fed.refusal || fed.accepted != part)
            fail("a reading of many is refused");
        t->state = fed.state;
    }
    return (now() - begun) / (double)count;
}

static double late_by_single(late_call call, trace *t, ndz_settings settings, size_t count)
{
    size_t numbers = open_trace(t, settings);
    double begun = now();
    for (size_t i = 0; i < count; i++)
        if (ndz_take(&t->state, call(t->state, t->room, numbers, ticks[i], values[i])))
            fail("a late reading is refused");
    return (now() - begun) / (double)count;
}

static double late_by_calls(late_many_call call, trace *t, ndz_settings settings, size_t count, size_t size)
{
    size_t numbers = open_trace(t, settings);
    double begun = now();
    for (size_t i = 0; i < count; i += size) {
        size_t part = count - i < size ? count - i : size;
        ndz_fed fed = call(t->state, t->room, numbers, ticks + i, part, values + i, part);
        if (fed.refusal || fed.accepted != part)
            fail("a late reading of many is refused");
        t->state = fed.state;
    }
    return (now() - begun) / (double)count;
}

static void least(double *of, double seconds)
{
    double ns = 1e9 * seconds;
    if (*of == 0 || ns < *of)
        *of = ns;
}

static void cell(double ns)
{
    printf(" %.*f |", ns < 10 ? 2 : ns < 100 ? 1 : 0, ns);
}

/* The first edition is what a row without it is of. */
static const char *told(uint64_t edition)
{
    return edition == NDZ_SECOND_EDITION ? ", edition 2" : "";
}

enum input { ON_WAVE, ON_FLIP, ON_FLAT, INPUTS };

static const char *const inputs[INPUTS] = {"wave", "flip", "flat"};

static void make_values(enum input input, size_t count)
{
    for (size_t i = 0; i < count; i++)
        values[i] = input == ON_FLAT ? FLAT : input == ON_FLIP ? (int32_t)(i & 1) * 1000 : value_at((uint32_t)i);
}

enum { ONE_CALL, PRICES, TREE, HAND, BLOCKS_OF_16, BLOCKS_OF_32, BLOCKS_OF_64, WAYS };

static const many_call ways[WAYS] = {ndz_next_many, plain_prices, plain_tree, plain_hand, plain_16, plain_32, plain_64};

/* Single calls take fewer readings, `few`, which are fed at one call as well and compared. */
static void row(const char *input, ndz_settings settings, size_t count, size_t few)
{
    double single = 0, plain_single = 0, of[WAYS] = {0};
    for (uint32_t turn = 0; turn < turns; turn++) {
        least(&single, by_single(ndz_next, &first, settings, few));
        least(&plain_single, by_single(plain_next, &other, settings, few));
        same("single calls");
        by_calls(ndz_next_many, &other, settings, few, few);
        same("single calls and one call");
        for (int i = 0; i < WAYS; i++) {
            least(&of[i], by_calls(ways[i], i == ONE_CALL ? &first : &other, settings, count, count));
            if (i != ONE_CALL)
                same("one call");
        }
    }
    double best = of[PRICES];
    for (int i = TREE; i < WAYS; i++)
        best = of[i] < best ? of[i] : best;
    printf("| %s, %s = %" PRIu64 " (single: %zu) |", input, settings.by ? "C" : "B", settings.size, few);
    cell(single);
    cell(of[ONE_CALL]);
    cell(plain_single);
    for (int i = PRICES; i < WAYS; i++)
        cell(of[i]);
    printf(" %.2f |\n", of[ONE_CALL] / best);
    fflush(stdout);
}

static void in_order(size_t count)
{
    static const uint64_t sizes[] = {1, 4, 16, 32, 64, 256};
    printf("| input | single calls | one call | plain C, single calls | prices kept | tree | in hand | blocks of 16 | blocks of 32 | blocks of 64 | one call/best |\n"
           "|---|---|---|---|---|---|---|---|---|---|---|\n");
    for (enum input input = ON_WAVE; input <= ON_FLIP; input++) {
        make_values(input, count);
        ndz_settings settings = {.kind = NDZ_IN_ORDER, .edition = NDZ_FIRST_EDITION};
        for (int i = 0; i < 6; i++) {
            settings.size = sizes[i];
            row(inputs[input], settings, count, count / (sizes[i] < 64 ? 10 : 100));
        }
        settings.size = 63;
        settings.by = NDZ_BY_BASE;
        row(inputs[input], settings, count, count / 10);
    }
}

/* In the second edition plain C has no tree. Beside it stands what the library's one call takes for the same readings in the first. */
static void second_row(const char *input, ndz_settings settings, size_t count, size_t few)
{
    ndz_settings of_first = settings;
    double one_in_first = 0, single = 0, one = 0, plain_single = 0, one_by_one = 0, prices = 0;
    of_first.edition = NDZ_FIRST_EDITION;
    settings.edition = NDZ_SECOND_EDITION;
    for (uint32_t turn = 0; turn < turns; turn++) {
        least(&one_in_first, by_calls(ndz_next_many, &first, of_first, count, count));
        by_calls(plain_prices, &other, of_first, count, count);
        same("one call beside edition 2");
        least(&single, by_single(ndz_next, &first, settings, few));
        least(&plain_single, by_single(plain_next, &other, settings, few));
        same("single calls, edition 2");
        by_calls(ndz_next_many, &other, settings, few, few);
        same("single calls and one call, edition 2");
        least(&one, by_calls(ndz_next_many, &first, settings, count, count));
        least(&one_by_one, by_calls(plain_one_by_one, &other, settings, count, count));
        same("one by one, edition 2");
        least(&prices, by_calls(plain_prices, &other, settings, count, count));
        same("one call, edition 2");
    }
    printf("| %s, %s = %" PRIu64 "%s (single: %zu) |", input, settings.by ? "C" : "B", settings.size, told(settings.edition), few);
    cell(one_in_first);
    cell(single);
    cell(one);
    cell(plain_single);
    cell(one_by_one);
    cell(prices);
    printf(" %.2f |\n", one / (one_by_one < prices ? one_by_one : prices));
    fflush(stdout);
}

static void second_in_order(size_t count)
{
    static const uint64_t sizes[] = {1, 32, 256};
    printf("\n| input | edition 1, one call | single calls | one call | plain C, single calls | plain C, one by one | prices kept | one call/best |\n"
           "|---|---|---|---|---|---|---|---|\n");
    for (enum input input = ON_WAVE; input < INPUTS; input++) {
        make_values(input, count);
        for (int i = 0; i < 3; i++)
            second_row(inputs[input], (ndz_settings){.kind = NDZ_IN_ORDER, .size = sizes[i]}, count, count / (sizes[i] < 64 ? 1 : 10));
        second_row(inputs[input], (ndz_settings){.kind = NDZ_IN_ORDER, .size = 63, .by = NDZ_BY_BASE}, count, count);
    }
}

/* Calls of so many readings each, every one with its check; the last column is one call. The flat pin in the second edition alone, which is there for it. */
static void parts(uint64_t edition, size_t count)
{
    static const uint64_t sizes[] = {16, 32, 256};
    enum { PARTS = 5 };
    const size_t of_each[PARTS] = {32, 128, 512, 4096, count};
    printf("\n| input | single calls | calls of 32 | calls of 128 | calls of 512 | calls of 4096 | one call |\n|---|---|---|---|---|---|---|\n");
    for (enum input input = ON_WAVE; input <= (edition == NDZ_SECOND_EDITION ? ON_FLAT : ON_FLIP); input++) {
        make_values(input, count);
        for (int i = 0; i < 3; i++) {
            ndz_settings settings = {.kind = NDZ_IN_ORDER, .size = sizes[i], .edition = edition};
            double single = 0, of[PARTS] = {0};
            for (uint32_t turn = 0; turn < turns; turn++) {
                least(&single, by_single(ndz_next, &first, settings, count));
                for (int k = 0; k < PARTS; k++) {
                    least(&of[k], by_calls(ndz_next_many, &other, settings, count, of_each[k]));
                    same("calls of parts");
                }
            }
            printf("| %s, B = %" PRIu64 "%s |", inputs[input], sizes[i], told(edition));
            cell(single);
            for (int k = 0; k < PARTS; k++)
                cell(of[k]);
            printf("\n");
            fflush(stdout);
        }
    }
}

static void late_row(const char *input, ndz_settings settings, size_t count)
{
    double single = 0, one = 0, plain_single = 0, plain_one = 0, by_512 = 0;
    for (uint32_t turn = 0; turn < turns; turn++) {
        least(&single, late_by_single(ndz_late, &first, settings, count));
        least(&by_512, late_by_calls(ndz_late_many, &other, settings, count, 512));
        same("late calls of parts");
        least(&one, late_by_calls(ndz_late_many, &other, settings, count, count));
        same("late at one call");
        least(&plain_single, late_by_single(plain_late, &other, settings, count));
        same("late by plain C");
        least(&plain_one, late_by_calls(plain_late_many, &other, settings, count, count));
        same("late at one call by plain C");
    }
    printf("| late%s, B = %" PRIu64 ", K = %" PRIu64 "%s |", input, settings.size, settings.gaps, told(settings.edition));
    cell(single);
    cell(by_512);
    cell(one);
    cell(plain_single);
    cell(plain_one);
    printf(" %.2f |\n", one / plain_one);
    fflush(stdout);
}

/* The wave: of each 32 ticks the first eight come last; then one reading in turn of each of 256 stretches. In the second edition the first once more, of a
 * flat pin. */
static void late(uint64_t edition, size_t count)
{
    const ndz_settings few = {.kind = NDZ_LATE, .size = 32, .gaps = 16, .edition = edition};
    const ndz_settings most = {.kind = NDZ_LATE, .size = NDZ_MOST_STEPS, .gaps = NDZ_MOST_GAPS, .edition = edition};
    printf("\n| call | single calls | calls of 512 | one call | plain C, single calls | plain C, one call | one call/plain C's |\n|---|---|---|---|---|---|---|\n");
    make_values(ON_WAVE, count);
    for (size_t i = 0; i < count; i++)
        ticks[i] = (uint32_t)((i & ~(size_t)31) + (i + 8) % 32);
    late_row("", few, count);
    if (edition == NDZ_SECOND_EDITION) {
        make_values(ON_FLAT, count);
        late_row(", flat", few, count);
        make_values(ON_WAVE, count);
    }
    for (size_t i = 0; i < count; i++)
        ticks[i] = (uint32_t)(i % 256 * 65536 + i / 256);
    late_row("", most, count / 4);
}

int main(int argc, char **argv)
{
    size_t count = argc > 1 ? strtoul(argv[1], NULL, 10) : 2000000;
    turns = argc > 2 ? (uint32_t)strtoul(argv[2], NULL, 10) : 3;
    values = malloc(count * sizeof *values);
    ticks = malloc(count * sizeof *ticks);
    if (values == NULL || ticks == NULL || count < 1000 || turns < 1)
        fail("the numbers that were named");
    plain_checks = 1;
    size_t young = count / 100 < 20000 && count > 20000 ? 20000 : count / 100;
    in_order(count);
    parts(NDZ_FIRST_EDITION, young);
    late(NDZ_FIRST_EDITION, count / 50);
    second_in_order(count / 10);
    parts(NDZ_SECOND_EDITION, young);
    late(NDZ_SECOND_EDITION, count / 50);
    return 0;
}
