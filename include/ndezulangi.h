/* Ndezulangi from C: a trace of readings kept as a few flat steps, in numbers that the caller lends.
 *
 * What every call keeps
 *   A call ends with its answer or with one refusal. `refusal` is 0 where the call was accepted, else the number of one of
 *   the NDZ_ names below (ndz_refusal_text has them in words); `place` is 0 but for NDZ_RECORD, where it is the index of the
 *   record. After a refusal nothing that was lent has changed, but for the count of refused readings in a tally, and where
 *   many readings are handed over for those before the refused one. The conditions are tried in the order in which a
 *   call lists its refusals, and the first that holds is the one given. All this is proved of the functions themselves
 *   (crates/c_trace, c_file, c_look, c_bucket, c_lend, c_replay, c_many, c_picture), for any numbers and bytes.
 *
 * What every call needs
 *   A pointer comes with the number of its elements: `numbers` counts numbers of 64 bits, not slots and not bytes. It must
 *   point to that many readable elements, writable ones where it is not const, and must not be null even if the number is 0.
 *   Memory that a call writes must not overlap anything else that it is lent. These three are the caller's part: C cannot
 *   check them. Nothing is allocated and nothing is kept between calls, so calls on different traces may run at the same
 *   time.
 *
 * The room
 *   Signed 64-bit numbers, four to a slot: start, count, least, largest. NDZ_NUMBERS(kind, B, K) numbers are enough for a
 *   trace opened by B, NDZ_NUMBERS_BASE(kind, C, K) for one opened by C, and a room may have more. The slots in use come
 *   first, in tick order, the others up to the needed number are zeros, and what lies behind the needed slots is never
 *   written. Hand each call the state that the last one left and the same room; state and room that do not belong together
 *   are refused by NDZ_UNSOUND by every call that looks at them, whatever they hold.
 *
 * Going on after an answer
 *   ndz_take(&state, ndz_next(state, ..)) goes on with an accepted answer's state and leaves the state where the call was
 *   refused; it returns the refusal. After many readings go on with the answered state, refused or not: it is the one after
 *   those that were accepted. `state = ndz_load(..).state` without a look at the refusal loses the trace at hand: a
 *   refused open, load or replay answers a state of zeros, which no reading and no look accepts.
 */
#ifndef NDEZULANGI_H
#define NDEZULANGI_H

#include <stddef.h>
#include <stdint.h>

#ifdef __cplusplus
extern "C" {
#endif

#define NDZ_VERSION_MAJOR 0
#define NDZ_VERSION_MINOR 9

/* Kinds. Any other number than 0 is taken as late, and an accepted call hands it back as 1. */
#define NDZ_IN_ORDER 0 /* the next reading takes the next tick, from 0 */
#define NDZ_LATE 1     /* each reading names its tick, in any order */

/* What `size` names: B, which stands for C = 2B, or C, the base limit, itself. Any other number than 0 is taken as by base,
 * and the state that is handed back has C alone. In a trace that was opened empty or replayed, also where it was saved and
 * loaded again with its settings: if every reading is within E of some curve of at most (C + 1) / 2 flat steps, rounded
 * down, every reading is within E of the steps kept. By B these are curves of at most B flat steps. Both editions keep it. */
#define NDZ_BY_STEPS 0 /* B, 1 to 256: at most 2B steps in order */
#define NDZ_BY_BASE 1  /* C, 1 to 512: at most C steps in order */

/* Editions: which two steps become one where a reading would make more steps than the limit. They are neighbours whose union
 * has the smallest spread; among equal spreads, in the first edition, the two that start first, in the second those whose union
 * has the fewest ticks, and among these the two that start first. Of the readings 5, 5, 5, 5 with C = 2 the first edition keeps
 * a step of three ticks and one of one, the second two steps of two. All versions up to 0.8 have the first edition alone; the
 * listing program and the picture program have it still, and published pages are made anew with it.
 * The edition is named wherever a trace is opened, loaded or replayed, and the state keeps it. None is taken by default: any
 * other number than these two is refused by NDZ_EDITION. A file does not say its edition: who kept files loads them with the
 * one that they were saved under, the first for all files up to version 0.8. With the other a file is accepted too and has the
 * same buckets, but goes on by the other edition. */
#define NDZ_FIRST_EDITION 1
#define NDZ_SECOND_EDITION 2

/* Limits. A late trace has at most C steps and one for each of its runs. No call opens by default: NDZ_DEFAULT_STEPS is the B
 * of the listing program and of the picture program where no line names one. Up to version 0.7 it was 32, and a file does not
 * say what it was saved with: who named NDZ_DEFAULT_STEPS then and kept files loads them with 32. */
#define NDZ_DEFAULT_STEPS 64
#define NDZ_MOST_STEPS 256
#define NDZ_MOST_BASE 512
#define NDZ_MOST_GAPS 256
#define NDZ_LAST_TICK 16777215
#define NDZ_MOST_BUCKETS 768 /* of any trace: C and K at their most */
#define NDZ_SLOT 4           /* numbers of a slot */
#define NDZ_RECORD_BYTES 16  /* bytes of a saved bucket */
#define NDZ_FRAME_BYTES 6    /* bytes of a logger's record */
#define NDZ_MOST_CAPTION 200 /* bytes of a picture's caption */
#define NDZ_PICTURE_BYTES 22866 /* bytes that are enough for every picture */

/* How many numbers a trace needs: four for each of C + 1 slots in order, of C + K + 1 late; by steps C is 2B. For B, C and K
 * in their bounds a constant where they are: int64_t room[NDZ_NUMBERS_BASE(NDZ_IN_ORDER, 63, 0)]. */
#define NDZ_NUMBERS_BASE(kind, base, gaps) (NDZ_SLOT * ((base) + ((kind) == NDZ_IN_ORDER ? 0 : (gaps)) + 1))
#define NDZ_NUMBERS(kind, steps, gaps) NDZ_NUMBERS_BASE(kind, 2 * (steps), gaps)

/* Refusals. */
#define NDZ_STEPS 1
#define NDZ_GAPS 2
#define NDZ_ROOM 3
#define NDZ_UNSOUND 4
#define NDZ_KIND 5
#define NDZ_TICK 6
#define NDZ_LENGTH 7
#define NDZ_RECORD 8
#define NDZ_RUNS 9
#define NDZ_OVERFULL 10
#define NDZ_TAKEN 11
#define NDZ_ABSENT 12
#define NDZ_SHORT 13
#define NDZ_CAPTION 15
#define NDZ_EDITION 16

/* What a trace is opened, loaded or replayed with. `size` is B or C, as `by` says; K, the most unbroken runs of a late
 * trace, is `gaps`, which is ignored in order. A replay is late, and does not look at `kind`. Settings that were written for
 * version 0.8 or before name no edition: what is left out is 0 and refused by NDZ_EDITION, and NDZ_FIRST_EDITION is what they
 * meant. */
typedef struct {
    uint64_t kind;
    uint64_t size;
    uint64_t gaps;
    uint64_t by;      /* NDZ_BY_STEPS or NDZ_BY_BASE; set it, or begin with = {0} */
    uint64_t edition; /* NDZ_FIRST_EDITION or NDZ_SECOND_EDITION; set it: 0 is neither */
} ndz_settings;

/* A trace but for its room. Where a state of version 0.3 was kept or filled by position, B stands in the place of `base`:
 * it must be doubled. Where one of version 0.8 or before was, it lacks `edition`: with 0 there it is refused by NDZ_UNSOUND,
 * and goes on as it would have with NDZ_FIRST_EDITION put there. A state of zeros stays refused. */
typedef struct {
    uint64_t kind;
    uint64_t base;     /* C, which is 2B where B was named */
    uint64_t gaps;     /* 0 in order */
    uint64_t used;     /* slots in use: the buckets */
    uint64_t runs;     /* longest stretches of arrived ticks */
    uint64_t readings; /* accepted so far */
    uint64_t edition;  /* as it was named at the opening */
} ndz_state;

/* Ticks from `start` on, `count` of them, and the least and largest reading among them. */
typedef struct {
    uint32_t start;
    uint32_t count;
    int32_t least;
    int32_t largest;
} ndz_bucket;

/* What became of the readings of a session; each count stops at 4294967295. */
typedef struct {
    uint32_t accepted;
    uint32_t refused;
    uint32_t merges;
} ndz_tally;

/* Accepted: the next state. Refused: the state that was given; of a refused open or load all zeros. */
typedef struct {
    uint32_t refusal;
    uint64_t place;
    ndz_state state;
} ndz_answer;

/* What became of many readings: how many were accepted before the first refusal, if there was one, and the state after those;
 * where none was accepted, the state that was given, exactly. */
typedef struct {
    uint32_t refusal;
    uint64_t place;
    ndz_state state;
    uint64_t accepted;
} ndz_fed;

/* A replayed trace, and how many records were accepted and how many refused. Refused: state and counts all zeros. */
typedef struct {
    uint32_t refusal;
    uint64_t place;
    ndz_state state;
    uint64_t accepted;
    uint64_t refused;
} ndz_replayed;

/* The step at a tick, and the least and largest reading of its bucket; every reading of the bucket is within `error` of
 * `level`. Zeros where refused. */
typedef struct {
    uint32_t refusal;
    uint64_t place;
    int32_t level;
    uint32_t error;
    int32_t least;
    int32_t largest;
} ndz_found;

/* Where a trace is first over a bar: `found` is 1 where a bucket is over, then its index from 0 and its start tick. Zeros
 * where there is none, and where refused: look at `refusal`, then at `found`, since index 0 and start 0 are a hit's too. */
typedef struct {
    uint32_t refusal;
    uint64_t place;
    uint32_t found;
    uint64_t index;
    uint32_t start;
} ndz_hit;

/* How many buckets were written; 0 where refused. */
typedef struct {
    uint32_t refusal;
    uint64_t place;
    uint64_t buckets;
} ndz_written;

/* How many bytes of a picture were written; 0 where refused. */
typedef struct {
    uint32_t refusal;
    uint64_t place;
    uint64_t bytes;
} ndz_drawn;

/* The worst error of a trace; 0 where refused. */
typedef struct {
    uint32_t refusal;
    uint64_t place;
    uint32_t error;
} ndz_worst_error;

/* An empty trace; the needed slots become zeros. In order the given K is ignored and kept as 0.
 * Refuses: NDZ_EDITION, NDZ_STEPS, NDZ_GAPS, NDZ_ROOM. */
ndz_answer ndz_open(ndz_settings settings, int64_t *room, size_t numbers);

/* The next reading of a trace in order: it takes the tick after the last one.
 * Refuses: NDZ_UNSOUND, NDZ_KIND, NDZ_TICK. */
ndz_answer ndz_next(ndz_state state, int64_t *room, size_t numbers, int32_t value);

/* A reading of a late trace at its tick.
 * Refuses: NDZ_UNSOUND, NDZ_KIND, NDZ_TICK, NDZ_TAKEN, NDZ_RUNS. */
ndz_answer ndz_late(ndz_state state, int64_t *room, size_t numbers, uint32_t tick, int32_t value);

/* The same two, counted in a tally. Begin with zeros. */
ndz_answer ndz_next_tallied(ndz_state state, int64_t *room, size_t numbers, int32_t value, ndz_tally *tally);
ndz_answer ndz_late_tallied(ndz_state state, int64_t *room, size_t numbers, uint32_t tick, int32_t value, ndz_tally *tally);

/* Many readings of a trace in order: each as ndz_next would take it, in turn, until one is refused, which is the one at
 * index `accepted`. Where there are none nothing is asked, so nothing is refused, even of an unsound trace.
 * It keeps some 66 KB on the stack, however few the readings.
 * Refuses: NDZ_UNSOUND, NDZ_KIND, NDZ_TICK. */
ndz_fed ndz_next_many(ndz_state state, int64_t *room, size_t numbers, const int32_t *values, size_t count);

/* The same of a late trace, each reading at its tick as ndz_late would take it: as many as there are of ticks and values
 * both. To pass over a refused reading, call again from the one behind it.
 * Refuses: NDZ_UNSOUND, NDZ_KIND, NDZ_TICK, NDZ_TAKEN, NDZ_RUNS. */
ndz_fed ndz_late_many(ndz_state state, int64_t *room, size_t numbers, const uint32_t *ticks, size_t tick_count,
                      const int32_t *values, size_t value_count);

/* The step that holds a tick. Writes nothing.
 * Refuses: NDZ_UNSOUND, NDZ_TICK, NDZ_ABSENT. */
ndz_found ndz_lookup(ndz_state state, const int64_t *room, size_t numbers, uint32_t tick);

/* The first bucket that holds a tick from `first` to `last`, both included, and whose largest reading is at or above `bar`.
 * A bucket partly in the range counts with its whole largest reading, so its start may lie before `first`, and the reading
 * at or above `bar` may be of one of its ticks outside the range. Where the call is not refused and none is found,
 * ndz_lookup shows no largest reading at or above `bar` at any tick of the range; and in a trace that was opened empty, also
 * where it was saved and loaded again with its settings, no accepted reading of the range is at or above `bar`. A range with
 * `first` above `last` has none. The index counts the buckets of the trace from 0, as ndz_row writes them, not those of the
 * range. Writes nothing.
 * Refuses: NDZ_UNSOUND, NDZ_TICK (either end is above NDZ_LAST_TICK, of an empty range too). */
ndz_hit ndz_first_over(ndz_state state, const int64_t *room, size_t numbers, uint32_t first, uint32_t last, int32_t bar);

/* The greatest error of a bucket, 0 for an empty trace. Writes nothing.
 * Refuses: NDZ_UNSOUND. */
ndz_worst_error ndz_worst(ndz_state state, const int64_t *room, size_t numbers);

/* The chart row: the buckets in tick order into the first places of `out`; what lies behind them stays.
 * Refuses: NDZ_UNSOUND, NDZ_SHORT (`out` has fewer places than there are buckets; NDZ_MOST_BUCKETS are always enough). */
ndz_written ndz_row(ndz_state state, const int64_t *room, size_t numbers, ndz_bucket *out, size_t places);

/* Level and error of a bucket: half the sum of least and largest, rounded down (toward minus infinity), and how far the
 * farther of the two is from it. A number added to both, where both still fit 32 bits, moves the level by that number and
 * leaves the error. */
int32_t ndz_level(ndz_bucket bucket);
uint32_t ndz_error(ndz_bucket bucket);

/* The saved form: 16 bytes a bucket, in tick order; each field 32 bits, low byte first. Bytes behind them stay.
 * Refuses: NDZ_UNSOUND, NDZ_SHORT (`out` has fewer than 16 bytes for each bucket). */
ndz_written ndz_save(ndz_state state, const int64_t *room, size_t numbers, uint8_t *out, size_t out_bytes);

/* One SVG picture of the trace with a caption, as text, to the first bytes of `out`; what lies behind it stays. The caption is
 * any bytes from 0x20 to 0x7E, NDZ_MOST_CAPTION at the most, and they are shown as typed: & < > " ' leave as XML has them, so
 * that nothing of it is taken for markup, in a file of its own or within a page. The text depends on the buckets and the
 * caption alone, and has no line across a missing tick. docs/PICTURE.md has it byte for byte, and how the caption is read back.
 * No byte of 0 stands behind it: `bytes` says where it ends.
 * Refuses: NDZ_UNSOUND, NDZ_CAPTION (the caption is too long, or one of its bytes is below 0x20 or above 0x7E), NDZ_SHORT
 * (`out` is shorter than the picture; NDZ_PICTURE_BYTES are always enough). */
ndz_drawn ndz_picture(ndz_state state, const int64_t *room, size_t numbers, const uint8_t *caption, size_t caption_bytes,
                      uint8_t *out, size_t out_bytes);

/* The trace of saved bytes. With the settings that it was saved with, it is the same trace; B and C = 2B are the same here,
 * whichever it was opened by. The edition is one of the settings, and not in the file: of a file saved up to version 0.8 it is
 * NDZ_FIRST_EDITION.
 * Refuses: NDZ_EDITION, NDZ_STEPS, NDZ_GAPS, NDZ_ROOM, NDZ_LENGTH, NDZ_RECORD, NDZ_RUNS, NDZ_OVERFULL. */
ndz_answer ndz_load(ndz_settings settings, const uint8_t *file, size_t bytes, int64_t *room, size_t numbers);

/* Opens a late trace, whatever `kind` says, and replays a recording of the handheld logger into it: records of 6 bytes
 * without a header, a counter of 16 bits, then a reading of 32 bits in two's complement, each low byte first. The first
 * record takes the tick 32768. Each next one takes the newest tick plus the difference of its counter from the newest one's,
 * which wraps and is taken as -32768 to 32767; the newest record is the one of the highest tick accepted so far. No tick is
 * below 0. A record that is refused by NDZ_TICK, NDZ_TAKEN or NDZ_RUNS is counted and passed over: it changes nothing else,
 * and is never the newest. The counter need not begin at 0: if each true tick differs from the newest accepted one by -32768
 * to 32767, and the counters go with the true ticks modulo 65536, the trace and the counts are those of feeding ndz_late with
 * the true ticks, shifted so that the first is 32768. A recording of no bytes makes an empty trace. No tally is touched.
 * The trace goes on with ndz_late, by ticks of which the first record's is 32768, and saves and loads as any late trace.
 * Where the call is refused nothing is written: go on with `state` only where `refusal` is 0.
 * The room is that of NDZ_LATE. Refuses: NDZ_EDITION, NDZ_STEPS, NDZ_GAPS, NDZ_ROOM, NDZ_LENGTH (`bytes` is not a multiple of
 * NDZ_FRAME_BYTES). */
ndz_replayed ndz_replay(ndz_settings settings, const uint8_t *recording, size_t bytes, int64_t *room, size_t numbers);

/* Goes on with the state of an accepted answer, and with the state at hand where it was refused. Returns the refusal. */
static inline uint32_t ndz_take(ndz_state *state, ndz_answer answer)
{
    if (answer.refusal == 0)
        *state = answer.state;
    return answer.refusal;
}

/* A refusal in words. */
static inline const char *ndz_refusal_text(uint32_t refusal)
{
    switch (refusal) {
    case 0: return "accepted";
    case NDZ_STEPS: return "the number of steps is 0 or above 256, or the base limit is 0 or above 512";
    case NDZ_GAPS: return "the number of runs allowed is 0 or above 256";
    case NDZ_ROOM: return "the room is too short";
    case NDZ_UNSOUND: return "state and room are not a sound trace";
    case NDZ_KIND: return "the call is for the other kind of trace";
    case NDZ_TICK: return "a tick is above the last one, or no tick is left";
    case NDZ_LENGTH: return "the saved bytes are not a multiple of 16, or the recorded ones not of 6";
    case NDZ_RECORD: return "a saved record breaks a rule";
    case NDZ_RUNS: return "there would be more runs than allowed";
    case NDZ_OVERFULL: return "there are more saved records than the limit of steps";
    case NDZ_TAKEN: return "the tick already has a reading";
    case NDZ_ABSENT: return "the tick has no reading";
    case NDZ_SHORT: return "the output is too short";
    case NDZ_CAPTION: return "the caption is longer than 200 bytes, or has a byte below 0x20 or above 0x7E";
    case NDZ_EDITION: return "the edition is neither 1 nor 2";
    default: return "no refusal has this number";
    }
}

#ifdef __cplusplus
}
#endif

#endif
