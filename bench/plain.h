/* The same rule in plain C, over the same room: what the library is measured against. */
#ifndef PLAIN_H
#define PLAIN_H

#include "ndezulangi.h"

/* 0 leaves the soundness check out. */
extern int plain_checks;

int plain_sound(const ndz_state *state, const int64_t *room, size_t numbers);
ndz_answer plain_open(ndz_settings settings, int64_t *room, size_t numbers);
ndz_answer plain_next(ndz_state state, int64_t *room, size_t numbers, int32_t value);
ndz_answer plain_late(ndz_state state, int64_t *room, size_t numbers, uint32_t tick, int32_t value);
ndz_written plain_save(ndz_state state, const int64_t *room, size_t numbers, uint8_t *out, size_t out_bytes);
ndz_answer plain_load(ndz_settings settings, const uint8_t *file, size_t bytes, int64_t *room, size_t numbers);
ndz_replayed plain_replay(ndz_settings settings, const uint8_t *recording, size_t bytes, int64_t *room, size_t numbers);

#endif
