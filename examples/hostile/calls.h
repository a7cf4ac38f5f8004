/*
 * calls.h - one call of each function of the library, its buffers watched and its answer and every lent byte held to expected.h.
 */
#ifndef CALLS_H
#define CALLS_H

#include "counts.h"

void calls_make(void);
void calls_make_records(void);

/* Each answers what the library answered. What is written to is given as the part that stands there before the call; `opened` and
 * `next` take the whole session buffer after an accepted one. */
unsigned try_open(part session, part consist, uint8_t *opened);
unsigned try_open_with(part session, part consist, uint32_t everlasting, uint8_t *opened);
unsigned try_sample(part session, part sample, part profile, part targets, part decisions, uint8_t *next);
void try_version(void);
void try_judges(part consist, part sample, part profile, part targets);

/* A consist that is known to be judged so, by the library, by the papers and by the second program. */
void try_consist(part consist, unsigned due);
unsigned try_write_consist(const uint32_t *fields, part out);
unsigned try_write_manifest(const uint32_t *fields, part lengths, part weights, part out);
unsigned try_write_profile(part starts, part grades, part curvatures, part out);
unsigned try_write_targets(part locations, part speeds, part out);
unsigned try_write_sample(const uint32_t *fields, part out);
unsigned try_read_decision(part decision, part numbers);

/* What a session's record has learnt, held to the second program's session, which keeps the points. */
void hold_learning(const second_session *points, const uint8_t *session_held);

#endif
