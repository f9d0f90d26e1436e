/* What the self test asks of the host. */
#ifndef CALLS_H
#define CALLS_H

#include "ndezulangi.h"

typedef ndz_written callee(ndz_state state, const int64_t *room, size_t numbers, uint8_t *out, size_t out_bytes);

typedef ndz_replayed replayer(ndz_settings settings, const uint8_t *recording, size_t bytes, int64_t *room, size_t numbers);

typedef ndz_fed feeder(ndz_state state, int64_t *room, size_t numbers, const uint32_t *ticks, size_t tick_count, const int32_t *values, size_t value_count);

typedef ndz_drawn drawer(ndz_state state, const int64_t *room, size_t numbers, const uint8_t *caption, size_t caption_bytes, uint8_t *out, size_t out_bytes);

/* What the commands `save`, `replay`, `latemany` and `picture` call: ndz_save, ndz_replay, ndz_late_many and ndz_picture, and in the self test others. */
extern callee *save;
extern replayer *replay;
extern feeder *late_many;
extern drawer *picture;

/* Obeys one command; the line is taken apart. */
void obey(char *line);

/* Answers the exit status. */
int selftest(void);

#endif
