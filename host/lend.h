/* Memory that is lent so that no touch beside it stays unseen: each part lies between two pages that may not be touched, against the one before it
 * or the one behind it by turns, and what is const is lent from pages that cannot be written. */
#ifndef LEND_H
#define LEND_H

#include <stddef.h>
#include <stdint.h>

typedef struct part part;

/* The parts that calls are lent, at most 720,896 bytes each. */
extern part *const room_part, *const file_part, *const row_part, *const output_part, *const tally_part, *const ticks_part, *const values_part,
    *const caption_part;

/* Once, before the rest. From then on a touch beside a part, or a write to a const one, ends the program by status 3 with a message. */
void make_parts(void);

/* What a message calls the call at hand. */
extern const char *call_at_hand;
extern uint64_t line_at_hand;

/* A copy of so many bytes: to be written, or const. */
void *lend(part *of, const void *bytes, size_t count);
const void *lend_const(part *of, const void *bytes, size_t count);

/* What the lent copy holds after the call. Ends the program if bytes close beside it have changed. */
void take_back(part *of, void *bytes);

#endif
