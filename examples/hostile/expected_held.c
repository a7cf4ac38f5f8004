/*
 * expected_held.c - see expected.h: a session as the record that its buffer holds.
 */
#include "expected.h"

#include <string.h>

enum { NO_BLOCKS = 0x55, MOST_PRESSURE = 16000, MOST_B = 9434, MOST_FALL = 3142, MOST_CAUSE = 8, BITS_24 = 1 << 24 };

/* Where each field begins, and its width: mark, its second byte, cause, emergency, sampled, choice, state, heard, hold, A, B,
 * equalization, fall, last front, last rear and last time. What is learnt follows at byte 24, the consist's 16 bytes at byte 46,
 * their check word at byte 62, and where there are blocks these at byte 66, with a check word of their own behind them. */
enum { FIELDS = 16, HELD_CONSIST = EXPECTED_CONSIST / 8, HELD_CHECK = 62, CHECK_BYTES = 4 };
static const int held_at[FIELDS] = {0, 8, 16, 20, EXPECTED_SAMPLED, EXPECTED_CHOICE, EXPECTED_STATE, EXPECTED_HEARD, 56, 72, 88,
                                    EXPECTED_EQUALIZATION, EXPECTED_FALL, EXPECTED_LAST_FRONT, EXPECTED_LAST_REAR,
                                    EXPECTED_LAST_TIME};
static const int held_width[FIELDS] = {8, 8, 4, 4, 1, 1, 5, EXPECTED_HEARD_WIDTH, 16, 16, 16, 16, 16, 16, 16, 24};

static int64_t held_field(const uint8_t *bytes, int place)
{
    return second_bits(bytes, held_at[place], held_width[place]);
}

size_t expected_blocks(const uint8_t *session)
{
    return session[1] <= BUONGILACH_BLOCKS_MOST ? session[1] : 0;
}

size_t expected_record(const uint8_t *session)
{
    size_t count = expected_blocks(session);
    return count == 0 ? EXPECTED_FRONT : EXPECTED_FRONT + count * BUONGILACH_BLOCK_BYTES + CHECK_BYTES;
}

/* The bytes' sum, and the sum that counts each as often as there are bytes from it on, both modulo 2 to the 16th. */
static int64_t check_of(const uint8_t *bytes, size_t count)
{
    int64_t sum = 0, weighed = 0;
    for (size_t i = 0; i < count; i++) {
        sum += bytes[i];
        weighed += (int64_t)(count - i) * bytes[i];
    }
    return sum % 65536 * 65536 + weighed % 65536;
}

void expected_seal_bytes(uint8_t *bytes, size_t count)
{
    second_put_bits(bytes + count, 0, 32, check_of(bytes, count));
}

static bool is_sealed(const uint8_t *bytes, size_t count)
{
    return second_bits(bytes + count, 0, 32) == check_of(bytes, count);
}

void expected_seal_front(uint8_t *session)
{
    expected_seal_bytes(session, HELD_CHECK);
}

void expected_seal_blocks(uint8_t *session)
{
    size_t count = expected_blocks(session);
    if (count > 0)
        expected_seal_bytes(session + EXPECTED_FRONT, count * BUONGILACH_BLOCK_BYTES);
}

void expected_seal(uint8_t *session)
{
    expected_seal_front(session);
    expected_seal_blocks(session);
}

/* Mark, count and check words of the record that stands there. */
static bool is_record(const uint8_t *session)
{
    size_t count = expected_blocks(session);
    return held_field(session, 0) == EXPECTED_MARK && (count > 0 || held_field(session, 1) == NO_BLOCKS)
        && is_sealed(session, HELD_CHECK) && (count == 0 || is_sealed(session + EXPECTED_FRONT, count * BUONGILACH_BLOCK_BYTES));
}

/* A and B together, by state (crates/brake/specs/Sound.antt, `is_balanced`). */
static bool is_balanced(const second_brakes *k, int64_t set)
{
    int64_t service = 5 * k->a + 2 * k->b;
    int64_t emergency = 12 * k->a + 2 * k->b;
    switch (k->state) {
    case 1:
        return service <= 5 * set && service <= 7 * k->equalization + 6;
    case 2:
        return service <= 5 * set;
    case 3:
        return emergency <= 12 * set && emergency <= 14 * k->equalization + 13;
    case 4:
        return emergency <= 12 * set;
    default:
        return k->b == 0;
    }
}

/* `is_sound` there; heard at no time past 24 bits (docs/DECISIONS.md 153). */
static bool is_sound(const second_brakes *k, int64_t set)
{
    return k->state <= 5 && k->a <= set && k->b <= MOST_B && 7 * k->equalization <= 6 * set && k->fall <= MOST_FALL
        && k->hold <= MOST_PRESSURE && k->last_front <= MOST_PRESSURE && k->last_rear <= MOST_PRESSURE
        && k->heard_at < BITS_24 && is_balanced(k, set);
}

/* `is_at_opening` of crates/brake/specs/Brake.antt: what an opening gives, by either choice. */
static bool is_opened(const second_brakes *k, int64_t set)
{
    return k->state == 0 && k->hold == set && k->a == set && k->b == 0 && k->equalization == 0 && k->fall == 0
        && k->last_front == 0 && k->last_rear == 0 && k->last_time == 0 && !k->heard;
}

/* `is_open` of crates/session: no emergency without a penalty; before the first sample the brakes are an opening's, and there is
 * no cause of either. */
static bool is_session(const second_session *session)
{
    return is_sound(&session->brakes, session->train.set) && session->cause <= MOST_CAUSE && session->emergency <= MOST_CAUSE
        && (session->emergency == 0 || session->cause != 0)
        && (session->begun || (is_opened(&session->brakes, session->train.set) && session->cause == 0 && session->emergency == 0));
}

static void read_brakes(const uint8_t *bytes, second_brakes *k)
{
    k->choice = held_field(bytes, 5) == 1 ? SECOND_EVERLASTING : SECOND_FIVE_SECONDS;
    k->state = held_field(bytes, 6);
    k->heard = held_field(bytes, 7) != 0;
    k->heard_at = k->heard ? held_field(bytes, 7) - 1 : 0;
    k->hold = held_field(bytes, 8);
    k->a = held_field(bytes, 9);
    k->b = held_field(bytes, 10);
    k->equalization = held_field(bytes, 11);
    k->fall = held_field(bytes, 12);
    k->last_front = held_field(bytes, 13);
    k->last_rear = held_field(bytes, 14);
    k->last_time = held_field(bytes, 15);
}

/* The consist's bytes, as an opening is given them. */
static void take_consist(const uint8_t *at, expected_session *session)
{
    size_t blocks_bytes = expected_blocks(at) * BUONGILACH_BLOCK_BYTES;
    memcpy(session->consist, at + HELD_CONSIST, BUONGILACH_CONSIST_BYTES);
    memcpy(session->consist + BUONGILACH_CONSIST_BYTES, at + EXPECTED_FRONT, blocks_bytes);
    session->consist_bytes = BUONGILACH_CONSIST_BYTES + blocks_bytes;
}

bool expected_held(part bytes, expected_session *session)
{
    const uint8_t *at = bytes.bytes;
    second_session *now = &session->now;
    if (bytes.count < BUONGILACH_SESSION_BYTES || !is_record(at))
        return false;
    take_consist(at, session);
    if (expected_judge_consist(part_of(session->consist, session->consist_bytes)) != 0
        || second_open(now, session->consist, session->consist_bytes) != 0)
        return false;
    now->cause = held_field(at, 2);
    now->emergency = held_field(at, 3);
    now->begun = (int)held_field(at, 4);
    read_brakes(at, &now->brakes);
    expected_read_learning(at, &session->learning);
    return is_session(now) && expected_learning_right(&session->learning, now->begun);
}

uint32_t expected_application(part session)
{
    expected_session held;
    return expected_held(session, &held) ? (uint32_t)held.now.train.application : 0;
}

void expected_bytes(const expected_session *session, uint8_t *bytes)
{
    const second_session *now = &session->now;
    const second_brakes *k = &now->brakes;
    size_t blocks_bytes = session->consist_bytes - BUONGILACH_CONSIST_BYTES;
    size_t count = blocks_bytes / BUONGILACH_BLOCK_BYTES;
    const int64_t fields[FIELDS] = {EXPECTED_MARK, count == 0 ? NO_BLOCKS : (int64_t)count, now->cause, now->emergency, now->begun,
                                    k->choice == SECOND_EVERLASTING, k->state, k->heard ? k->heard_at + 1 : 0, k->hold, k->a,
                                    k->b, k->equalization, k->fall, k->last_front, k->last_rear, k->last_time};
    memset(bytes, 0, BUONGILACH_SESSION_BYTES);
    for (int i = 0; i < FIELDS; i++)
        second_put_bits(bytes, held_at[i], held_width[i], fields[i]);
    expected_put_learning(bytes, &session->learning);
    memcpy(bytes + HELD_CONSIST, session->consist, BUONGILACH_CONSIST_BYTES);
    second_put_bits(bytes, EXPECTED_APPLICATION, EXPECTED_APPLICATION_WIDTH, now->train.application);
    memcpy(bytes + EXPECTED_FRONT, session->consist + BUONGILACH_CONSIST_BYTES, blocks_bytes);
    expected_seal(bytes);
}

void expected_even(const expected_session *session, uint8_t *bytes)
{
    expected_session even = *session;
    even.consist_bytes = BUONGILACH_CONSIST_BYTES;
    expected_bytes(&even, bytes);
}

void expected_other(const expected_session *session, uint8_t *bytes)
{
    expected_session other = *session;
    second_choice *choice = &other.now.brakes.choice;
    *choice = *choice == SECOND_EVERLASTING ? SECOND_FIVE_SECONDS : SECOND_EVERLASTING;
    expected_bytes(&other, bytes);
}

