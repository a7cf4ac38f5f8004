/*
 * expected.c - see expected.h.
 */
#include "expected.h"

#include <string.h>

enum { BITS_24 = 1 << 24 };

/* ---- the session */

unsigned expected_open(size_t room, part consist, uint32_t everlasting, uint8_t *session)
{
    expected_session opened;
    unsigned refusal = expected_judge_consist(consist);
    if (refusal != 0 && refusal < 12)
        return refusal;
    if (room < BUONGILACH_SESSION_BYTES)
        return 12;
    if (refusal != 0)
        return refusal;
    memcpy(opened.consist, consist.bytes, consist.count);
    opened.consist_bytes = consist.count;
    opened.learning = (second_learning){0};
    second_open_with(&opened.now, consist.bytes, consist.count, everlasting != 0 ? SECOND_EVERLASTING : SECOND_FIVE_SECONDS);
    expected_bytes(&opened, session);
    return 0;
}

unsigned expected_sample(part session, part sample, part profile, part targets, size_t room, uint8_t *next, uint8_t *decisions)
{
    expected_session held;
    if (!expected_held(session, &held))
        return 1;
    unsigned refusal = (unsigned)second_judge(&held.now, sample.bytes, sample.count, profile.bytes, profile.count, targets.bytes,
                                              targets.count, decisions, room);
    if (refusal == 0) {
        expected_learn(&held, second_bits(sample.bytes, 32, 1) == 1);
        expected_bytes(&held, next);
    }
    return refusal;
}

/* ---- the records */

unsigned expected_judge_profile(part profile)
{
    static second_profile read;
    return (unsigned)second_read_profile(profile.bytes, profile.count, &read);
}

unsigned expected_write_profile(part starts, part grades, part curvatures, size_t room, uint8_t *records)
{
    size_t count = starts.count;
    if (grades.count != count || curvatures.count != count || count > BUONGILACH_PROFILE_RECORDS_MOST)
        return 6;
    for (size_t i = 0; i < count; i++) {
        uint8_t *record = records + i * BUONGILACH_PROFILE_RECORD_BYTES;
        int64_t start = ((const uint32_t *)starts.bytes)[i];
        int64_t grade = ((const int16_t *)grades.bytes)[i];
        int64_t curvature = ((const uint16_t *)curvatures.bytes)[i];
        if (start >= BITS_24 || grade < -1024 || grade > 1023 || curvature >= 2048)
            return 6;
        second_put_bits(record, 0, 24, start);
        second_put_bits(record, 24, 11, (grade + 2048) % 2048);
        second_put_bits(record, 35, 11, curvature);
        second_put_bits(record, 46, 2, 0);
    }
    part written = {records, count * BUONGILACH_PROFILE_RECORD_BYTES};
    unsigned refusal = expected_judge_profile(written);
    return refusal != 0 ? refusal : room < written.count ? 12 : 0;
}

unsigned expected_judge_targets(part targets)
{
    second_targets read;
    return (unsigned)second_read_targets(targets.bytes, targets.count, &read);
}

unsigned expected_write_targets(part locations, part speeds, size_t room, uint8_t *records)
{
    size_t count = locations.count;
    if (speeds.count != count || count > BUONGILACH_TARGETS_MOST)
        return 7;
    for (size_t i = 0; i < count; i++) {
        uint8_t *record = records + i * BUONGILACH_TARGET_RECORD_BYTES;
        int64_t location = ((const uint32_t *)locations.bytes)[i];
        if (location >= BITS_24)
            return 7;
        second_put_bits(record, 0, 24, location);
        second_put_bits(record, 24, 16, ((const uint16_t *)speeds.bytes)[i]);
    }
    part written = {records, count * BUONGILACH_TARGET_RECORD_BYTES};
    unsigned refusal = expected_judge_targets(written);
    return refusal != 0 ? refusal : room < written.count ? 12 : 0;
}

unsigned expected_judge_sample(part sample)
{
    if (sample.count != BUONGILACH_SAMPLE_BYTES)
        return 2;
    if (!second_sample_well_formed(sample.bytes))
        return 3;
    return second_readings_in_range(sample.bytes) ? 0 : 8;
}

unsigned expected_write_sample(const uint32_t *fields, size_t room, uint8_t *record)
{
    static const int widths[8] = {8, 24, 1, 7, 24, 32, 32, 32};
    const int64_t values[8] = {0x53, fields[0], fields[4] != 0, 0, fields[1], fields[2], fields[3], fields[5]};
    if (fields[4] == 0 && fields[5] != 0)
        return 3;
    if (fields[0] >= BITS_24 || fields[1] >= BITS_24)
        return 4;
    int at = 0;
    for (int i = 0; i < 8; i++) {
        second_put_bits(record, at, widths[i], values[i]);
        at += widths[i];
    }
    if (!second_readings_in_range(record))
        return 8;
    return room < BUONGILACH_SAMPLE_BYTES ? 12 : 0;
}

unsigned expected_read_decision(part decision, size_t room, uint32_t *numbers)
{
    second_decision read = {0};
    unsigned refusal = (unsigned)second_read_decision(decision.bytes, decision.count, &read);
    if (refusal != 0)
        return refusal;
    const int64_t values[BUONGILACH_DECISION_NUMBERS] = {read.time, read.state, read.penalty, read.cause, read.stop};
    for (int i = 0; i < BUONGILACH_DECISION_NUMBERS; i++)
        numbers[i] = (uint32_t)values[i];
    return room < BUONGILACH_DECISION_NUMBERS ? 12 : 0;
}
