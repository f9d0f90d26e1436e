/* The self test: callees in the place of ndz_save, ndz_replay, ndz_late_many and ndz_picture that touch more than they are lent, or write to what is const,
 * must end the host with a message, and those that do not must not. */
#define _GNU_SOURCE
#include "calls.h"
#include <stdio.h>
#include <string.h>
#include <sys/wait.h>
#include <unistd.h>

static volatile int64_t seen;

static ndz_written right(ndz_state of, const int64_t *numbers, size_t count, uint8_t *out, size_t out_bytes)
{
    for (size_t i = 0; i < count; i++)
        seen += numbers[i];
    for (size_t i = 0; i < out_bytes; i++)
        out[i] = 1;
    return (ndz_written){0, 0, of.used};
}

static ndz_written reads_before(ndz_state of, const int64_t *numbers, size_t count, uint8_t *out, size_t out_bytes)
{
    seen += numbers[-1];
    return right(of, numbers, count, out, out_bytes);
}

static ndz_written reads_behind(ndz_state of, const int64_t *numbers, size_t count, uint8_t *out, size_t out_bytes)
{
    seen += numbers[count];
    return right(of, numbers, count, out, out_bytes);
}

static ndz_written writes_before(ndz_state of, const int64_t *numbers, size_t count, uint8_t *out, size_t out_bytes)
{
    *(volatile uint8_t *)(out - 1) = 1;
    return right(of, numbers, count, out, out_bytes);
}

static ndz_written writes_behind(ndz_state of, const int64_t *numbers, size_t count, uint8_t *out, size_t out_bytes)
{
    *(volatile uint8_t *)(out + out_bytes) = 1;
    return right(of, numbers, count, out, out_bytes);
}

/* The same number again: only that it is written is wrong. */
static ndz_written writes_const(ndz_state of, const int64_t *numbers, size_t count, uint8_t *out, size_t out_bytes)
{
    volatile int64_t *first = (volatile int64_t *)(uintptr_t)numbers;
    *first = *first;
    return right(of, numbers, count, out, out_bytes);
}

static ndz_replayed right_replay(ndz_settings of, const uint8_t *recording, size_t bytes, int64_t *numbers, size_t count)
{
    for (size_t i = 0; i < bytes; i++)
        seen += recording[i];
    for (size_t i = 0; i < count; i++)
        numbers[i] = 0;
    return (ndz_replayed){.refused = of.size};
}

static ndz_replayed reads_before_file(ndz_settings of, const uint8_t *recording, size_t bytes, int64_t *numbers, size_t count)
{
    seen += *(const volatile uint8_t *)(recording - 1);
    return right_replay(of, recording, bytes, numbers, count);
}

static ndz_replayed reads_behind_file(ndz_settings of, const uint8_t *recording, size_t bytes, int64_t *numbers, size_t count)
{
    seen += *(const volatile uint8_t *)(recording + bytes);
    return right_replay(of, recording, bytes, numbers, count);
}

static ndz_replayed writes_file(ndz_settings of, const uint8_t *recording, size_t bytes, int64_t *numbers, size_t count)
{
    volatile uint8_t *last = (volatile uint8_t *)(uintptr_t)(recording + bytes - 1);
    *last = *last;
    return right_replay(of, recording, bytes, numbers, count);
}

static ndz_replayed writes_behind_room(ndz_settings of, const uint8_t *recording, size_t bytes, int64_t *numbers, size_t count)
{
    *(volatile int64_t *)(numbers + count) = 0;
    return right_replay(of, recording, bytes, numbers, count);
}

static ndz_fed right_many(ndz_state of, int64_t *numbers, size_t count, const uint32_t *ticks, size_t tick_count, const int32_t *values, size_t value_count)
{
    for (size_t i = 0; i < tick_count; i++)
        seen += ticks[i];
    for (size_t i = 0; i < value_count; i++)
        seen += values[i];
    for (size_t i = 0; i < count; i++)
        numbers[i] = 0;
    return (ndz_fed){.state = of};
}

static ndz_fed reads_before_ticks(ndz_state of, int64_t *numbers, size_t count, const uint32_t *ticks, size_t tick_count, const int32_t *values, size_t value_count)
{
    seen += *(const volatile uint32_t *)(ticks - 1);
    return right_many(of, numbers, count, ticks, tick_count, values, value_count);
}

/* As many ticks as values, where there are fewer. */
static ndz_fed reads_behind_ticks(ndz_state of, int64_t *numbers, size_t count, const uint32_t *ticks, size_t tick_count, const int32_t *values, size_t value_count)
{
    seen += *(const volatile uint32_t *)(ticks + value_count - 1);
    return right_many(of, numbers, count, ticks, tick_count, values, value_count);
}

static ndz_fed reads_behind_values(ndz_state of, int64_t *numbers, size_t count, const uint32_t *ticks, size_t tick_count, const int32_t *values, size_t value_count)
{
    seen += *(const volatile int32_t *)(values + value_count);
    return right_many(of, numbers, count, ticks, tick_count, values, value_count);
}

static ndz_fed writes_values(ndz_state of, int64_t *numbers, size_t count, const uint32_t *ticks, size_t tick_count, const int32_t *values, size_t value_count)
{
    volatile int32_t *first = (volatile int32_t *)(uintptr_t)values;
    *first = *first;
    return right_many(of, numbers, count, ticks, tick_count, values, value_count);
}

static ndz_drawn right_picture(ndz_state of, const int64_t *numbers, size_t count, const uint8_t *caption, size_t caption_bytes, uint8_t *out, size_t out_bytes)
{
    for (size_t i = 0; i < caption_bytes; i++)
        seen += caption[i];
    right(of, numbers, count, out, out_bytes);
    return (ndz_drawn){0, 0, out_bytes};
}

static ndz_drawn reads_before_caption(ndz_state of, const int64_t *numbers, size_t count, const uint8_t *caption, size_t caption_bytes, uint8_t *out, size_t out_bytes)
{
    seen += *(const volatile uint8_t *)(caption - 1);
    return right_picture(of, numbers, count, caption, caption_bytes, out, out_bytes);
}

/* As whoever looks for a 0 at its end. */
static ndz_drawn reads_behind_caption(ndz_state of, const int64_t *numbers, size_t count, const uint8_t *caption, size_t caption_bytes, uint8_t *out, size_t out_bytes)
{
    seen += *(const volatile uint8_t *)(caption + caption_bytes);
    return right_picture(of, numbers, count, caption, caption_bytes, out, out_bytes);
}

static ndz_drawn writes_caption(ndz_state of, const int64_t *numbers, size_t count, const uint8_t *caption, size_t caption_bytes, uint8_t *out, size_t out_bytes)
{
    volatile uint8_t *first = (volatile uint8_t *)(uintptr_t)caption;
    *first = *first;
    return right_picture(of, numbers, count, caption, caption_bytes, out, out_bytes);
}

static ndz_drawn writes_behind_picture(ndz_state of, const int64_t *numbers, size_t count, const uint8_t *caption, size_t caption_bytes, uint8_t *out, size_t out_bytes)
{
    *(volatile uint8_t *)(out + out_bytes) = 0;
    return right_picture(of, numbers, count, caption, caption_bytes, out, out_bytes);
}

/* So many saves, replays, calls of many readings or pictures by the callee, in a process of its own; answers its status, and what it said. */
static int tried(callee *called, replayer *replaying, feeder *feeding, drawer *drawing, char *said, size_t most)
{
    int ends[2];
    memset(said, 0, most);
    if (pipe(ends) != 0)
        return -1;
    pid_t child = fork();
    if (child == 0) {
        dup2(ends[1], STDERR_FILENO);
        close(ends[0]);
        if (called != NULL)
            save = called;
        if (replaying != NULL)
            replay = replaying;
        if (feeding != NULL)
            late_many = feeding;
        if (drawing != NULL)
            picture = drawing;
        char room[] = "room numbers=13", file[] = "file bytes=18";
        obey(room);
        obey(file);
        for (int turn = 0; turn < 64; turn++) {
            char saved[] = "save bytes=33", replayed[] = "replay size=1 gaps=1 edition=1", fed[] = "latemany from=9 ticks=5 values=6";
            char drawn[] = "picture from=9 letters=5 bytes=33";
            obey(called != NULL ? saved : replaying != NULL ? replayed : feeding != NULL ? fed : drawn);
        }
        _exit(0);
    }
    close(ends[1]);
    ssize_t length = read(ends[0], said, most - 1);
    close(ends[0]);
    int status = -1;
    if (child < 0 || length < 0 || waitpid(child, &status, 0) != child || !WIFEXITED(status))
        return -1;
    return WEXITSTATUS(status);
}

int selftest(void)
{
    static const struct {
        const char *name, *message;
        callee *called;
        replayer *replaying;
        feeder *feeding;
        drawer *drawing;
        int status;
    } callees[] = {
        {"right", "", right, NULL, NULL, NULL, 0},
        {"reads before the room", "touches what lies before the room", reads_before, NULL, NULL, NULL, 3},
        {"reads behind the room", "touches what lies behind the room", reads_behind, NULL, NULL, NULL, 3},
        {"writes before the output", " the output", writes_before, NULL, NULL, NULL, 3},
        {"writes behind the output", " the output", writes_behind, NULL, NULL, NULL, 3},
        {"writes to the const room", "writes to the room", writes_const, NULL, NULL, NULL, 3},
        {"replays right", "", NULL, right_replay, NULL, NULL, 0},
        {"reads before the file", "touches what lies before the file", NULL, reads_before_file, NULL, NULL, 3},
        {"reads behind the file", "touches what lies behind the file", NULL, reads_behind_file, NULL, NULL, 3},
        {"writes to the const file", "writes to the file", NULL, writes_file, NULL, NULL, 3},
        {"writes behind the room", " the room", NULL, writes_behind_room, NULL, NULL, 3},
        {"feeds right", "", NULL, NULL, right_many, NULL, 0},
        {"reads before the ticks", "touches what lies before the ticks", NULL, NULL, reads_before_ticks, NULL, 3},
        {"reads behind the ticks", "touches what lies behind the ticks", NULL, NULL, reads_behind_ticks, NULL, 3},
        {"reads behind the values", "touches what lies behind the values", NULL, NULL, reads_behind_values, NULL, 3},
        {"writes to the const values", "writes to the values", NULL, NULL, writes_values, NULL, 3},
        {"draws right", "", NULL, NULL, NULL, right_picture, 0},
        {"reads before the caption", "touches what lies before the caption", NULL, NULL, NULL, reads_before_caption, 3},
        {"reads behind the caption", "touches what lies behind the caption", NULL, NULL, NULL, reads_behind_caption, 3},
        {"writes to the const caption", "writes to the caption", NULL, NULL, NULL, writes_caption, 3},
        {"writes behind the picture", " the output", NULL, NULL, NULL, writes_behind_picture, 3},
    };
    for (size_t i = 0; i < sizeof callees / sizeof callees[0]; i++) {
        char said[256];
        int status = tried(callees[i].called, callees[i].replaying, callees[i].feeding, callees[i].drawing, said, sizeof said);
        if (status != callees[i].status || strstr(said, callees[i].message) == NULL) {
            printf("host: a callee that %s ends with %d and says: %s\n", callees[i].name, status, said);
            return 1;
        }
    }
    puts("host: a callee that touches more than it is lent, or writes to what is const, ends it");
    return 0;
}
