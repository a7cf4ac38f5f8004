/*
 * expected.h - what each function of buongilach.h must answer and write, from the second program's rules and the session's
 * layout. Consists are judged here, by the papers alone. Nothing here calls the library.
 */
#ifndef EXPECTED_H
#define EXPECTED_H

#include "lent.h"
#include "../../second/second.h"

#include "buongilach.h"

/* The second program's session, with the consist's bytes: how it holds blocks is its own affair. The record's sums stand in the
 * place of its learner's points; the application time in force is the train's, and not the consist's own. */
typedef struct {
    second_session now;
    second_learning learning;
    uint8_t consist[BUONGILACH_CONSIST_BYTES_MOST];
    size_t consist_bytes;
} expected_session;

/* Of a session's record: the bytes before its blocks, and where some of its fields begin, in bits. Heard is 0 for never, else one
 * more than the time. */
enum {
    EXPECTED_FRONT = 66,
    EXPECTED_MARK = 0x46,
    EXPECTED_SAMPLED = 24,
    EXPECTED_CHOICE = 25,
    EXPECTED_STATE = 26,
    EXPECTED_HEARD = 31,
    EXPECTED_HEARD_WIDTH = 25,
    EXPECTED_EQUALIZATION = 104,
    EXPECTED_FALL = 120,
    EXPECTED_LAST_FRONT = 136,
    EXPECTED_LAST_REAR = 152,
    EXPECTED_LAST_TIME = 168,
    EXPECTED_CONSIST = 368,
    EXPECTED_APPLICATION = EXPECTED_CONSIST + 74,
    EXPECTED_APPLICATION_WIDTH = 18
};

/* Whether an open session's record stands at the front of the bytes, and that session. */
bool expected_held(part bytes, expected_session *session);

/* The 326 bytes of a session, open or not: its record, and zeros. */
void expected_bytes(const expected_session *session, uint8_t *bytes);

/* The same session of a train whose weight is spread evenly; under the other choice of what a lost rear counts as. */
void expected_even(const expected_session *session, uint8_t *bytes);
void expected_other(const expected_session *session, uint8_t *bytes);

/* The application time in force, 0 where there is no open session's record. */
uint32_t expected_application(part session);

/* What a record holds of learning; put there, the record is still to be sealed. */
void expected_read_learning(const uint8_t *session, second_learning *now);
void expected_put_learning(uint8_t *session, const second_learning *now);

/* Whether an open session may hold that, before any accepted sample or after one. */
bool expected_learning_right(const second_learning *now, bool begun);

/* Learns from an accepted sample, its brakes updated, whose rear is present or lost. */
void expected_learn(expected_session *session, bool present);

/* Whether that has a field which its stage has no use for, or a time that is not before a sample's: no run leaves it, and nothing
 * says what follows of it. Of sums that no points come to it is said (docs/DECISIONS.md 160 and 161). */
bool expected_is_loose(const second_learning *before, int64_t time);

/* How many blocks the second byte of a record's mark tells: none for a byte that is no count. */
size_t expected_blocks(const uint8_t *session);

/* How many bytes that record has. */
size_t expected_record(const uint8_t *session);

/* Puts the check words right: behind so many bytes; of the front, the record's first 66 bytes; of the blocks behind it; of both. */
void expected_seal_bytes(uint8_t *bytes, size_t count);
void expected_seal_front(uint8_t *session);
void expected_seal_blocks(uint8_t *session);
void expected_seal(uint8_t *session);

/* Each answers the refusal or 0; the bytes that an accepted call writes are in the last arguments. */
unsigned expected_open(size_t room, part consist, uint32_t everlasting, uint8_t *session);
unsigned expected_sample(part session, part sample, part profile, part targets, size_t room, uint8_t *next, uint8_t *decisions);

unsigned expected_judge_consist(part consist);

/* Whether the second program judges the consist so, too. */
bool expected_alike(part consist);

/* cars, axles, weight, length, rated, application, recharge, set, offset; the two parts hold uint16_t, and their counts are of
 * elements, in what follows too */
unsigned expected_write_consist(const uint32_t *fields, size_t room, uint8_t *record);
unsigned expected_write_manifest(const uint32_t *fields, part lengths, part weights, size_t room, uint8_t *record);

/* The three and two parts hold uint32_t, int16_t and uint16_t. */
unsigned expected_write_profile(part starts, part grades, part curvatures, size_t room, uint8_t *records);
unsigned expected_judge_profile(part profile);
unsigned expected_write_targets(part locations, part speeds, size_t room, uint8_t *records);
unsigned expected_judge_targets(part targets);

/* time, head, speed, front, present (any value but 0), rear */
unsigned expected_write_sample(const uint32_t *fields, size_t room, uint8_t *record);
unsigned expected_judge_sample(part sample);
unsigned expected_read_decision(part decision, size_t room, uint32_t *numbers);

#endif
