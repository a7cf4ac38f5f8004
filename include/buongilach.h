/*
 * buongilach.h - the brake predictor, for C11 and C++. Link libbuongilach.a (x86-64 Linux; docs/MOUNTING.md says how, and
 * docs/RECORDS.md draws the records bit by bit).
 *
 * A session is opened with a consist and then given a sample at a time; each accepted sample is answered by two decisions: the
 * first says whether the penalty brake must go on, the second whether the emergency brake must go on behind it. "01" is the
 * document that gives the rules, as "02" changes it.
 *
 * Units: speed in hundredths of a mph, pressure in hundredths of a psi, location and length in feet, grade in hundredths of a
 * percent (negative downhill), curvature in hundredths of a degree, weight in tons of 2,000 lb. Only a sample carries its
 * readings otherwise: mph and psi, each the 32 bits of an IEEE 754 binary32.
 *
 * What a call answers: 0, or the number of one refusal. Where several apply, it is the lowest. A refused call changes no byte of
 * what it was lent; an accepted one writes the bytes that are named below and none past them.
 *
 * What the caller owes, and nothing checks:
 *  - each pointer leads to as many elements as the length after it says, for reading, and for writing where it is not const;
 *    numbers (uint16_t, int16_t, uint32_t) stand at addresses that are aligned for them;
 *  - what a call writes overlaps nothing else that the same call is lent;
 *  - a length above 0 has no null pointer. With length 0 the pointer is not followed, and null will do;
 *  - while a call runs, nothing else writes what it was lent: no session is used by two threads at once. Calls on different
 *    sessions may run at the same time, as nothing is kept outside of what is lent;
 *  - floating-point exceptions are masked in the processor's MXCSR register, as they are by default. Its rounding mode, and
 *    whether denormals are taken as zero, change no answer;
 *  - the stack is aligned to 16 bytes at the call, as every compiler for x86-64 Linux does, and has 12,288 bytes left.
 * Any bytes and any lengths are allowed: no content makes a call undefined.
 *
 * What a call leaves behind, beside what it writes: MXCSR's exception flags, which stay set once a reading has set them.
 */
#ifndef BUONGILACH_H
#define BUONGILACH_H

#include <stdbool.h>
#include <stddef.h>
#include <stdint.h>

#ifdef __cplusplus
extern "C" {
#endif

/* The version of this header, major * 1,000,000 + minor * 1,000 + patch. */
#define BUONGILACH_VERSION_MAJOR 8
#define BUONGILACH_VERSION_MINOR 0
#define BUONGILACH_VERSION_PATCH 0
#define BUONGILACH_VERSION (BUONGILACH_VERSION_MAJOR * 1000000 + BUONGILACH_VERSION_MINOR * 1000 + BUONGILACH_VERSION_PATCH)

/* The version of the archive that is linked. Where it is not BUONGILACH_VERSION, header and archive are of two releases. */
uint32_t buongilach_version(void);

enum {
    BUONGILACH_SESSION_BYTES = 326,      /* a session's buffer, with blocks or without */
    BUONGILACH_CONSIST_BYTES = 16,       /* a consist without blocks */
    BUONGILACH_BLOCK_BYTES = 4,          /* what each block adds to it */
    BUONGILACH_BLOCKS_MOST = 64,
    BUONGILACH_CONSIST_BYTES_MOST = 272, /* a consist with the most blocks */
    BUONGILACH_SAMPLE_BYTES = 20,
    BUONGILACH_DECISION_BYTES = 8,
    BUONGILACH_BOTH_DECISIONS_BYTES = 16, /* what a sample call writes: two decisions, one after the other */
    BUONGILACH_DECISION_NUMBERS = 5,
    BUONGILACH_PROFILE_RECORD_BYTES = 6,
    BUONGILACH_PROFILE_RECORDS_LEAST = 2,
    BUONGILACH_PROFILE_RECORDS_MOST = 257,
    BUONGILACH_PROFILE_BYTES_MOST = 1542,
    BUONGILACH_TARGET_RECORD_BYTES = 5,
    BUONGILACH_TARGETS_MOST = 8,
    BUONGILACH_TARGETS_BYTES_MOST = 40,
    BUONGILACH_LOCATION_MOST = 4000000,
    BUONGILACH_NO_STOP = 16777215 /* a decision's stop where the train does not stop within 32,768 ft */
};

/* What a call answers. docs/MOUNTING.md says what each asks of the caller. */
enum buongilach_refusal {
    BUONGILACH_ACCEPTED = 0,
    BUONGILACH_NO_SESSION = 1,     /* a sample, and no open session's record stands at the front of 326 bytes */
    BUONGILACH_WRONG_LENGTH = 2,   /* a consist is under 16 bytes, a sample not 20, a decision that is read not 8 */
    BUONGILACH_WRONG_MARK = 3,     /* a wrong mark; a sample's spare bit set, or its rear lost with rear bits not zero */
    BUONGILACH_OUT_OF_RANGE = 4,   /* a field of a consist or a decision; a sample's time or head over 24 bits (writer) */
    BUONGILACH_TOO_LIGHT = 5,      /* a consist of less than 10 tons a car */
    BUONGILACH_BROKEN_PROFILE = 6, /* the profile breaks a rule, its byte count included */
    BUONGILACH_BROKEN_TARGETS = 7, /* the targets break a rule, their byte count included */
    BUONGILACH_BAD_READING = 8,    /* NaN, infinite, below zero, a speed above 100 mph or a pressure above 160 psi */
    BUONGILACH_WRONG_TIME = 9,     /* not 1 to 5 seconds after the last accepted sample */
    BUONGILACH_NOT_COVERED = 10,   /* head less than the train's length, or a profile too short before or behind it */
    /* 11 is retired: it is proved that no input gives it, and the number is not used again */
    BUONGILACH_NO_ROOM = 12,       /* fewer bytes (or numbers) to write to than are asked for: 16 bytes by a sample call, 326 by an
                                      opening */
    BUONGILACH_BROKEN_BLOCKS = 13  /* a consist's blocks break a rule, their byte count included */
};

/* A decision's brake state. */
enum buongilach_state {
    BUONGILACH_CHARGED = 0,
    BUONGILACH_APPLYING_SERVICE = 1,
    BUONGILACH_HOLDING_SERVICE = 2,
    BUONGILACH_APPLYING_EMERGENCY = 3,
    BUONGILACH_HOLDING_EMERGENCY = 4,
    BUONGILACH_CHARGING = 5
};

/*
 * The places of a decision's numbers, as buongilach_read_decision gives them; the two decisions of a sample have the same time and
 * state. Before the penalty is called, bit, cause and location of the second are 0.
 */
enum buongilach_number {
    BUONGILACH_TIME = 0,      /* the sample's time, in seconds */
    BUONGILACH_STATE = 1,     /* enum buongilach_state */
    BUONGILACH_PENALTY = 2,   /* of the first decision. 1: the penalty brake must go on; it stays 1 until the next opening */
    BUONGILACH_EMERGENCY = 2, /* of the second. 1: the emergency brake must go on; it stays 1 until the next opening */
    BUONGILACH_CAUSE = 3,     /* 1 to 8: the target's place in the list when that brake was called; 0 where it was not */
    BUONGILACH_STOP = 4       /* where the head would stop, by penalty or by emergency air, or BUONGILACH_NO_STOP */
};

/* ---- the session */

/*
 * A session is a record at the front of a buffer of 326 bytes or more: 66 bytes, and where its consist has blocks 4 more for each
 * and another 4. An accepted call writes the record and sets the bytes past it, up to the 326th, to 0; no call reads those, and
 * none reads or writes a byte from the 327th on. Check words guard the record: one in which one byte or two were changed, wherever,
 * is no open session's; where more were changed, only chance makes it one.
 */

/*
 * Opens a session, whatever stood in its buffer. The consist is 16 bytes, and 4 more for each of its blocks. A lost rear reading
 * counts in this session as the last present one for 5 seconds, and then as front: buongilach_open_with with `everlasting` 0.
 * The consist's application time is a first guess, in force until the session learns one (buongilach_application); an opening
 * forgets what an earlier session learnt.
 * Refuses 2, 4, 5 (the consist), 12 (`session` under 326 bytes, whatever the consist), 13 (the consist's blocks). Refused, an
 * earlier session stays as it was.
 */
uint8_t buongilach_open(uint8_t *session, size_t session_bytes, const uint8_t *consist, size_t consist_bytes);

/*
 * The same with a choice of what a lost rear reading counts as, which the session keeps until it is opened anew:
 *  - `everlasting` 0, the default: as the last present reading where that is at most 5 seconds old, exactly 5 too; as front, each
 *    sample's own, where it is older or there was none since the opening;
 *  - `everlasting` any other value, not only 1: as the last present reading, however old it is; where there was none, as the front
 *    of the session's first sample.
 * It is a whole uint32_t so that no wider value is cut to 0 on its way.
 * Refuses what buongilach_open does, whatever `everlasting` is.
 */
uint8_t buongilach_open_with(uint8_t *session, size_t session_bytes, const uint8_t *consist, size_t consist_bytes,
                             uint32_t everlasting);

/*
 * Judges a sample. `session` begins with the record that an opening or the last accepted sample left. Profile and targets are
 * judged at each call, and the targets may change from call to call. Accepted: the record is the next session's, and the first 16
 * bytes of `decision` are two decisions, each to be read by buongilach_read_decision: bytes 0 to 7 are the penalty's, 8 to 15
 * emergency's.
 * The penalty is called for a target ahead where the train, braked from here on, is not down to its speed for good, by the target's
 * offset before it: what counts is the head from which, to the end of the predicted run, its speed stays at or below the target's.
 * A train that is below that speed and would speed up past it again, downhill, is called for too; and where there is no stop, every
 * target from the head to 32,768 ft ahead calls, whatever its speed.
 * Emergency is predicted from the sample that calls the penalty on. It is called where the stop by emergency air is at or past a
 * target of speed 0 that lies from the head to 32,768 ft ahead, and once called it stands until a session is opened anew, whatever
 * targets are lent afterwards. There is no emergency without a penalty.
 * A lost rear pressure is no refusal: the sample is judged with what it counts as under the session's choice (the openings, above),
 * by default the last present one for 5 seconds and then front. Only accepted samples bring a present one.
 * The application time is learnt from present rear readings while a service application falls to the train's rear and levels off.
 * A learnt time is in force from the next sample on; a refused sample teaches nothing.
 * Grade and curvature under the train are averaged by the weight of the consist's blocks, or evenly where it has none.
 * Refuses 1 (no open session's record, or `session` under 326 bytes), 2, 3, 6, 7, 8, 9, 10, 12 (`decision` under 16 bytes).
 */
uint8_t buongilach_sample(uint8_t *session, size_t session_bytes, const uint8_t *sample, size_t sample_bytes,
                          const uint8_t *profile, size_t profile_bytes, const uint8_t *targets, size_t targets_bytes,
                          uint8_t *decision, size_t decision_bytes);

/* Whether an open session's record stands at the front of these bytes: whether `buongilach_sample` would not refuse them 1. */
bool buongilach_is_open(const uint8_t *session, size_t session_bytes);

/*
 * The application time in force, in ms, so that a host can log it: what the consist says until one was learnt from a service
 * application's rear pressure, then the one that was learnt last, 1,000 to 240,000. 0 where these bytes begin with no open
 * session's record. It reads the session and changes nothing.
 */
uint32_t buongilach_application(const uint8_t *session, size_t session_bytes);

/* ---- the records: each is written from numbers, and judged as a sample call or an opening would judge it */

/*
 * Writes a consist without blocks, its weight spread evenly, to the first 16 bytes of `out`: cars (1 to 250), axles (2 to 2,000),
 * weight (10 to 30,000 tons), length (50 to 20,000 ft), rated brake force (0 to 10,000,000 lb), application time (1,000 to 240,000
 * ms, a first guess), recharge per second (1 to 1,000 hundredths of a psi), set pressure (7,000 to 11,000 hundredths of a psi),
 * target offset (0 to 4,000 ft).
 * Refuses 4, 5, 12.
 */
uint8_t buongilach_write_consist(uint16_t cars, uint16_t axles, uint16_t weight, uint16_t length, uint32_t rated,
                                 uint32_t application, uint16_t recharge, uint16_t set, uint16_t offset, uint8_t *out,
                                 size_t out_bytes);

/*
 * Writes a consist with 0 to 64 blocks, 4 bytes each, to the front of `out`: the same nine numbers, then for block i lengths[i]
 * (feet) and weights[i] (tons), head end first. Each is at least 1; the lengths sum to the train's length, the weights to its
 * weight. The two counts are of elements and must be equal. Without a block it writes what buongilach_write_consist does.
 * Refuses 4, 5, 12 (`out` under 16 bytes and 4 for each of the lengths), 13 (the blocks break a rule, or the counts differ).
 */
uint8_t buongilach_write_manifest(uint16_t cars, uint16_t axles, uint16_t weight, uint16_t length, uint32_t rated,
                                  uint32_t application, uint16_t recharge, uint16_t set, uint16_t offset, const uint16_t *lengths,
                                  size_t lengths_count, const uint16_t *weights, size_t weights_count, uint8_t *out,
                                  size_t out_bytes);

/* A consist with blocks or without. 0, or 2 (under 16 bytes), 4, 5, 13 (what follows the 16 bytes breaks a rule). */
uint8_t buongilach_judge_consist(const uint8_t *consist, size_t consist_bytes);

/*
 * Writes a profile of 2 to 257 records, 6 bytes each, to the front of `out`: record i has starts[i] (at most 4,000,000, strictly
 * rising), grades[i] (-500 to 500) and curvatures[i] (0 to 2,000), and holds up to the next start. The last only ends the
 * profile: its grade and curvature are 0. The three lengths count elements and must be equal.
 * Refuses 6 (lengths that differ, too), 12.
 */
uint8_t buongilach_write_profile(const uint32_t *starts, size_t starts_count, const int16_t *grades, size_t grades_count,
                                 const uint16_t *curvatures, size_t curvatures_count, uint8_t *out, size_t out_bytes);

/* 0, or 6. */
uint8_t buongilach_judge_profile(const uint8_t *profile, size_t profile_bytes);

/*
 * Writes 0 to 8 targets, 5 bytes each, to the front of `out`: locations[i] (at most 4,000,000, strictly rising) and speeds[i]
 * (0 to 10,000). The two lengths count elements and must be equal.
 * Refuses 7 (lengths that differ, too), 12.
 */
uint8_t buongilach_write_targets(const uint32_t *locations, size_t locations_count, const uint16_t *speeds, size_t speeds_count,
                                 uint8_t *out, size_t out_bytes);

/* 0, or 7. */
uint8_t buongilach_judge_targets(const uint8_t *targets, size_t targets_bytes);

/*
 * Writes a sample to the first 20 bytes of `out`: time in seconds and head location (both below 2 to the 24th), then the bits of
 * a binary32 each: speed in mph (0 to 100), front and rear brake pipe pressure in psi (0 to 160). `present` says whether there is
 * a rear reading: 0 for none, and `rear` must then be 0; any other value, not only 1, for one, and `rear` is then judged. It is
 * a whole uint32_t so that no wider value is cut to 0 on its way.
 * Refuses 3 (`present` 0 and `rear` not 0), 4, 8, 12.
 */
uint8_t buongilach_write_sample(uint32_t time, uint32_t head, uint32_t speed, uint32_t front, uint32_t present, uint32_t rear,
                                uint8_t *out, size_t out_bytes);

/* 0, or 2, 3, 8. */
uint8_t buongilach_judge_sample(const uint8_t *sample, size_t sample_bytes);

/*
 * Reads one decision, the penalty's or emergency's, into the first five of `numbers`, in the order of enum buongilach_number. A
 * sample's two decisions are read by two calls, the first with `decision`, the second with `decision + 8`, each with 8 bytes: the
 * numbers do not say which of the two was read. `numbers_count` counts elements.
 * Refuses 2, 3, 4, 12 (room for fewer than five).
 */
uint8_t buongilach_read_decision(const uint8_t *decision, size_t decision_bytes, uint32_t *numbers, size_t numbers_count);

#ifdef __cplusplus
}
#endif

#endif
