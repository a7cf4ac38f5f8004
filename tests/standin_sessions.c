/*
 * standin_sessions.c - see standin.c: opening, and a sample call.
 */
#include "standin.h"

#include <string.h>

enum { FRONT = EXPECTED_FRONT, NO_BLOCKS = 0x55 }; /* what a record's count is without blocks */

static uint8_t opened(uint8_t *session, size_t session_bytes, part given, uint32_t everlasting)
{
    uint8_t due[BUONGILACH_SESSION_BYTES] = {0};
    unsigned answer = expected_open(session_bytes, given, everlasting, due);
    size_t written_bytes = BUONGILACH_SESSION_BYTES;
    if (planted("open: the learnt time stays") && answer == 0 && expected_application(part_of(session, session_bytes)) != 0)
        put_application(due, expected_application(part_of(session, session_bytes)));
    if (planted("open: a byte past the session") && answer == 0)
        session[BUONGILACH_SESSION_BYTES] = 1;
    if (planted("open: shut by a refusal") && answer != 0 && session_bytes > 0)
        session[0] = 0;
    if (planted("open: 12 first") && session_bytes < BUONGILACH_SESSION_BYTES)
        return 12;
    if (planted("open: 13 before 12") && answer == 12 && expected_judge_consist(given) == 13)
        return 13;
    if (planted("open: 325 bytes will do") && answer == 12 && session_bytes == 325 && expected_judge_consist(given) == 0) {
        answer = expected_open(BUONGILACH_SESSION_BYTES, given, everlasting, due);
        written_bytes = 325;
    }
    if (planted("open: the record's own size will do") && answer == 12 && session_bytes >= FRONT
        && given.count == BUONGILACH_CONSIST_BYTES) {
        answer = expected_open(BUONGILACH_SESSION_BYTES, given, everlasting, due);
        written_bytes = FRONT;
    }
    if (planted("open: B not 0")) {
        second_put_bits(due, 88, 16, 1);
        expected_seal(due);
    }
    if (planted("open: not cleared past the record") && answer == 0)
        written_bytes = expected_record(due);
    if (planted("open: the blocks' check word over all") && answer == 0 && expected_blocks(due) > 0)
        due[expected_record(due) - 1] ^= 1;
    return (uint8_t)written(answer, session, due, written_bytes);
}

uint8_t buongilach_open(uint8_t *session, size_t session_bytes, const uint8_t *consist, size_t consist_bytes)
{
    return opened(session, session_bytes, part_of(consist, consist_bytes), planted("open: the everlasting choice"));
}

uint8_t buongilach_open_with(uint8_t *session, size_t session_bytes, const uint8_t *consist, size_t consist_bytes,
                             uint32_t everlasting)
{
    if (planted("open_with: a wide choice refused") && everlasting > 1)
        return 4;
    uint8_t answer = opened(session, session_bytes, part_of(consist, consist_bytes), choice_taken(everlasting));
    if (planted("open_with: a byte past the session") && answer == 0 && session_bytes > BUONGILACH_SESSION_BYTES)
        session[BUONGILACH_SESSION_BYTES] ^= 1;
    if (planted("open_with: shut by a refusal") && answer != 0 && session_bytes > 0)
        session[0] ^= 1;
    return answer;
}

bool buongilach_is_open(const uint8_t *session, size_t session_bytes)
{
    expected_session held;
    uint8_t longer[BUONGILACH_SESSION_BYTES] = {0};
    if (planted("is_open: by the mark") && session_bytes >= BUONGILACH_SESSION_BYTES)
        return session[0] == EXPECTED_MARK && session[1] == NO_BLOCKS;
    if (planted("is_open: 326 bytes only") && session_bytes > BUONGILACH_SESSION_BYTES)
        return false;
    if (planted("is_open: the record's own size will do") && session_bytes >= FRONT && session_bytes < sizeof longer) {
        memcpy(longer, session, session_bytes);
        return expected_held(part_of(longer, sizeof longer), &held);
    }
    return expected_held(part_of(session, session_bytes), &held);
}

static bool is_held(const uint8_t *record)
{
    expected_session held;
    return expected_held(part_of(record, BUONGILACH_SESSION_BYTES), &held);
}

static bool is_clear(const uint8_t *bytes, size_t count)
{
    return count == 0 || (bytes[0] == 0 && memcmp(bytes, bytes + 1, count - 1) == 0);
}

/* A record as a library takes it that leaves a rule for the blocks out, with the check words that it then has. */
static void leave_blocks_rule_out(uint8_t *record)
{
    size_t count = expected_blocks(record);
    if (planted("sample: the blocks' check word unread"))
        expected_seal_blocks(record);
    if (planted("sample: a block's spare bits")) {
        for (size_t i = 0; i < count; i++)
            record[FRONT + 3 + BUONGILACH_BLOCK_BYTES * i] &= 0xFC;
        expected_seal_blocks(record);
    }
    if ((planted("sample: a count of 0") && record[1] == 0) || (planted("sample: the blocks unjudged") && count > 0)) {
        record[1] = NO_BLOCKS;
        expected_seal_front(record);
    }
}

/* The same for a rule of the front, of a record that is sealed or not. */
static void leave_front_rule_out(uint8_t *record, bool sealed)
{
    if (planted("sample: an emergency without a penalty") && sealed && second_bits(record, 16, 4) == 0)
        second_put_bits(record, 16, 4, 1);
    if (planted("sample: an opening with any brakes") && sealed)
        second_put_bits(record, EXPECTED_SAMPLED, 1, 1);
    if (sealed) {
        leave_rear_rule_out(record);
        leave_learning_rule_out(record);
    }
    if (sealed || planted("sample: the check word unread"))
        expected_seal(record);
}

/* The record that a library takes which does not look at everything; it stands until the next call. */
static const uint8_t *taken(const uint8_t *session, size_t session_bytes)
{
    static uint8_t record[BUONGILACH_SESSION_BYTES], right[BUONGILACH_SESSION_BYTES];
    if (session_bytes < sizeof record)
        return session;
    memcpy(record, session, sizeof record);
    if (is_held(session)) {
        size_t bytes = expected_record(session);
        if (planted("sample: bytes past the record read") && !is_clear(session + bytes, sizeof record - bytes))
            record[0] = 0;
        if (planted("sample: the choice's bit is spare") && second_bits(record, EXPECTED_CHOICE, 1) == 1)
            record[0] = 0;
        return record;
    }
    memcpy(right, record, sizeof right);
    expected_seal(right);
    leave_front_rule_out(record, memcmp(record, right, sizeof record) == 0);
    leave_blocks_rule_out(record);
    return record;
}

/* The train's blocks from tail to head, or none. */
static void rearrange(expected_session *held)
{
    uint8_t blocks[BUONGILACH_BLOCKS_MOST * BUONGILACH_BLOCK_BYTES];
    size_t bytes = held->consist_bytes - BUONGILACH_CONSIST_BYTES;
    memcpy(blocks, held->consist + BUONGILACH_CONSIST_BYTES, bytes);
    for (size_t at = 0; planted("sample: tail end first") && at < bytes; at += BUONGILACH_BLOCK_BYTES)
        memcpy(held->consist + held->consist_bytes - BUONGILACH_BLOCK_BYTES - at, blocks + at, BUONGILACH_BLOCK_BYTES);
    if (planted("sample: an even spread"))
        held->consist_bytes = BUONGILACH_CONSIST_BYTES;
}

/* What is due of a sample, by a library that lets the blocks lie otherwise, counts a lost rear otherwise or learns otherwise; what
 * it holds of the first two stays. */
static unsigned due_of(part session, part sample, part profile, part targets, size_t room, uint8_t *next, uint8_t *decisions)
{
    expected_session was, now;
    uint8_t before[BUONGILACH_SESSION_BYTES], record[BUONGILACH_SESSION_BYTES];
    if (!expected_held(session, &was))
        return 1;
    now = was;
    rearrange(&now);
    expected_bytes(&was, before);
    expected_bytes(&now, record);
    miscount_rear(record, sample);
    unsigned answer = expected_sample(part_of(record, sizeof record), sample, profile, targets, room, next, decisions);
    if (answer != 0 || !expected_held(part_of(next, sizeof record), &now))
        return answer;
    memcpy(now.consist, was.consist, sizeof now.consist);
    now.consist_bytes = was.consist_bytes;
    expected_bytes(&now, next);
    put_rear_back(next, before, sample);
    learn(next, before, sample);
    if (planted("sample: the learnt time serves at once")) {
        now.now.train.application = second_bits(next, EXPECTED_APPLICATION, EXPECTED_APPLICATION_WIDTH);
        put_application(record, now.now.train.application);
        expected_sample(part_of(record, sizeof record), sample, profile, targets, room, before, decisions);
    }
    return answer;
}

uint8_t buongilach_sample(uint8_t *session, size_t session_bytes, const uint8_t *sample, size_t sample_bytes,
                          const uint8_t *profile, size_t profile_bytes, const uint8_t *targets, size_t targets_bytes,
                          uint8_t *decision, size_t decision_bytes)
{
    uint8_t next[BUONGILACH_SESSION_BYTES];
    uint8_t due[BUONGILACH_BOTH_DECISIONS_BYTES + 1] = {0};
    uint8_t *const second = due + BUONGILACH_DECISION_BYTES;
    if (planted("sample: 326 bytes only") && session_bytes > BUONGILACH_SESSION_BYTES)
        return 1;
    if (planted("sample: 12 before 3") && decision_bytes < BUONGILACH_BOTH_DECISIONS_BYTES
        && sample_bytes == BUONGILACH_SAMPLE_BYTES && buongilach_is_open(session, session_bytes))
        return 12;
    if (planted("sample: reads a byte too many"))
        due[0] = ((const volatile uint8_t *)sample)[sample_bytes];
    unsigned answer = due_of(part_of(taken(session, session_bytes), session_bytes), part_of(sample, sample_bytes),
                             part_of(profile, profile_bytes), part_of(targets, targets_bytes), decision_bytes, next, due);
    size_t next_bytes = sizeof next;
    if (planted("sample: not cleared past the record") && answer == 0)
        next_bytes = expected_record(next);
    if (planted("sample: the blocks unwritten") && answer == 0)
        next_bytes = FRONT;
    if (planted("sample: a runaway is refused") && answer == 0 && second_bits(due, 40, 24) == BUONGILACH_NO_STOP
        && second_bits(sample, 64, 32) >= 0x42B40000) /* 90 mph */
        return 11;
    if (planted("sample: a byte past the session") && answer == 0 && session_bytes > sizeof next)
        session[sizeof next] ^= 1;
    if (planted("sample: a seventeenth byte") && answer == 0)
        decision[BUONGILACH_BOTH_DECISIONS_BYTES] = 0;
    if (planted("sample: room of 15 bytes") && answer == 12 && decision_bytes == 15)
        return 0;
    if (planted("sample: the first record twice"))
        memcpy(second + 1, due + 1, BUONGILACH_DECISION_BYTES - 1);
    if (planted("sample: the second record with the first's mark"))
        second[0] = due[0];
    if (planted("sample: the emergency unwritten") && answer == 0) {
        second_put_bits(next, 20, 4, 0);
        expected_seal(next);
    }
    if (planted("sample: the penalty's cause for emergency's") && answer == 0 && second_bits(second, 35, 1) == 1)
        second_put_bits(second, 36, 4, second_bits(due, 36, 4));
    if (planted("sample: time kept when refused") && answer == 10) {
        memcpy(session + 21, sample + 1, 3);
        expected_seal(session);
    }
    if (planted("sample: heard when refused") && answer == 10) {
        second_put_bits(session, EXPECTED_HEARD, EXPECTED_HEARD_WIDTH, second_bits(sample, 8, 24) + 1);
        expected_seal(session);
    }
    if (planted("sample: learnt when refused") && answer == 10)
        put_application(session, 1000);
    if (planted("sample: decision written when refused") && answer == 9)
        memset(decision, 0x44, decision_bytes);
    if (planted("sample: the last rear lost") && answer == 0) {
        second_put_bits(next, EXPECTED_LAST_REAR, 16, 0);
        expected_seal(next);
    }
    if (planted("sample: the session stays") && answer == 0)
        memcpy(next, session, sizeof next);
    written(answer, decision, due, BUONGILACH_BOTH_DECISIONS_BYTES);
    return (uint8_t)written(answer, session, next, next_bytes);
}
