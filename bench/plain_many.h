/* Many readings at one call in plain C, with one check: what the library's calls for many readings are measured against. */
#ifndef PLAIN_MANY_H
#define PLAIN_MANY_H

#include "plain.h"

/* In order: by prices kept beside the room; by a tree; by a tree with the last bucket in hand; the same with readings tested in blocks of 16, of 32 and of 64.
 * In the second edition there is no tree, and all six are the first. */
ndz_fed plain_prices(ndz_state state, int64_t *room, size_t numbers, const int32_t *values, size_t count);
ndz_fed plain_tree(ndz_state state, int64_t *room, size_t numbers, const int32_t *values, size_t count);
ndz_fed plain_hand(ndz_state state, int64_t *room, size_t numbers, const int32_t *values, size_t count);
ndz_fed plain_16(ndz_state state, int64_t *room, size_t numbers, const int32_t *values, size_t count);
ndz_fed plain_32(ndz_state state, int64_t *room, size_t numbers, const int32_t *values, size_t count);
ndz_fed plain_64(ndz_state state, int64_t *room, size_t numbers, const int32_t *values, size_t count);

/* In order too, in the room alone: one by one after the check. */
ndz_fed plain_one_by_one(ndz_state state, int64_t *room, size_t numbers, const int32_t *values, size_t count);

/* Late: one by one after the check. */
ndz_fed plain_late_many(ndz_state state, int64_t *room, size_t numbers, const uint32_t *ticks, size_t tick_count, const int32_t *values, size_t value_count);

#endif
