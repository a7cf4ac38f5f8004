/*
 * sessions.h - sessions that no call made: a record with bytes changed, values in and just out of their ranges, noise.
 */
#ifndef SESSIONS_H
#define SESSIONS_H

#include "trip.h"

/* What became of sessions that were changed. */
typedef struct {
    unsigned long shut, open;
} change;

/* One byte or two of the record changed, of the front or of the blocks behind it; a byte past the record; a byte of the front or a
 * bit of the blocks with the check word put right; blocks changed together, or their count, sealed too. Sealed as well: the choice
 * turned over; heard at another time, at one past 24 bits, before any sample; the mark of the layout before; something else learnt,
 * past a bound, before any sample. */
typedef struct {
    change front, blocks, past, sealed_front, sealed_blocks, moved;
    change choice, heard, heard_too_late, heard_too_soon, earlier;
    change learning, learning_too_far, learning_too_soon;
} changes;

extern changes changed;

/* Counts whether the library takes these bytes for an open session's, with all else as the trip has it. */
void count_change(change *kind, const trip *t, const uint8_t *session);

void run_flips(void);
void run_noise(void);

#endif
