/*
 * sessions.c - see sessions.h.
 */
#include "sessions.h"

#include "learnings.h"
#include "made.h"
#include "rears.h"

#include <string.h>

enum {
    PAIRS = 10000, /* of changed bytes, a session */
    MOVES = 2000,  /* of feet and tons, from block to block */
    NOISES = 20000,
    FRONT = EXPECTED_FRONT,
    CHECK = 4
};

changes changed;

/* ---- a session's record, changed */

void count_change(change *kind, const trip *t, const uint8_t *session)
{
    uint8_t decisions[BUONGILACH_BOTH_DECISIONS_BYTES] = {0};
    unsigned answer = try_sample(part_of(session, t->session_bytes), part_of(t->sample, sizeof t->sample),
                                 part_of(t->profile, t->profile_bytes), part_of(t->targets, t->targets_bytes),
                                 part_of(decisions, sizeof decisions), NULL);
    kind->shut += answer == BUONGILACH_NO_SESSION;
    kind->open += answer != BUONGILACH_NO_SESSION;
}

/* Each byte of the record at each other value. */
static void try_flips(const trip *t)
{
    uint8_t session[SESSION_ROOM];
    memcpy(session, t->session, sizeof session);
    for (size_t place = 0; place < expected_record(t->session); place++) {
        for (int value = 1; value < 256; value++) {
            session[place] = t->session[place] ^ (uint8_t)value;
            count_change(place < FRONT ? &changed.front : &changed.blocks, t, session);
        }
        session[place] = t->session[place];
    }
}

/* Two bytes at other values; where there are blocks, both in the front, both behind it, and one in each. */
static void try_pairs(const trip *t)
{
    uint32_t bytes = (uint32_t)expected_record(t->session);
    for (int i = 0; i < PAIRS; i++) {
        uint8_t session[SESSION_ROOM];
        memcpy(session, t->session, sizeof session);
        uint32_t place = made_once_in(2) ? made_below(FRONT) : made_below(bytes);
        uint32_t other = (place + 1 + made_below(bytes - 1)) % bytes;
        session[place] ^= (uint8_t)(1 + made_below(255));
        session[other] ^= (uint8_t)(1 + made_below(255));
        count_change(place < FRONT && other < FRONT ? &changed.front : &changed.blocks, t, session);
    }
}

/* Each byte past the record at another value, which nobody reads. */
static void try_past(const trip *t)
{
    uint8_t session[SESSION_ROOM];
    for (size_t place = expected_record(t->session); place < t->session_bytes; place++) {
        memcpy(session, t->session, sizeof session);
        session[place] ^= (uint8_t)(1 + made_below(255));
        count_change(&changed.past, t, session);
    }
}

/* Each byte of the front at each value, and the check word put right: what only the rules tell from an open session. */
static void try_sealed_front(const trip *t)
{
    uint8_t session[SESSION_ROOM];
    for (size_t place = 0; place < FRONT - CHECK; place++)
        for (int value = 0; value < 256; value++) {
            memcpy(session, t->session, sizeof session);
            session[place] = (uint8_t)value;
            expected_seal(session);
            count_change(&changed.sealed_front, t, session);
        }
}

/* Each bit of the blocks turned over, the same. */
static void try_sealed_blocks(const trip *t)
{
    uint8_t session[SESSION_ROOM];
    for (size_t place = FRONT; place < expected_record(t->session) - CHECK; place++)
        for (int bit = 0; bit < 8; bit++) {
            memcpy(session, t->session, sizeof session);
            session[place] ^= (uint8_t)(1 << bit);
            expected_seal(session);
            count_change(&changed.sealed_blocks, t, session);
        }
}

/* A number of a block made so much greater, in its 15 bits. */
static void add_to(uint8_t *block, int at, int64_t more)
{
    second_put_bits(block, at, 15, (second_bits(block, at, 15) + more) & 32767);
}

/* Feet or tons that go from a block to another leave the sums right: an open session's, but where a block has none left. */
static void try_moves(const trip *t)
{
    uint32_t count = (uint32_t)expected_blocks(t->session);
    for (int i = 0; count > 1 && i < MOVES; i++) {
        uint8_t session[SESSION_ROOM];
        memcpy(session, t->session, sizeof session);
        int at = made_once_in(2) ? 0 : 15;
        uint32_t from = made_below(count), to = (from + 1 + made_below(count - 1)) % count;
        int64_t whole = second_bits(session + FRONT + 4 * from, at, 15);
        int64_t moved = whole - made_below(2) - (made_once_in(2) ? made_below((uint32_t)whole) : 0);
        add_to(session + FRONT + 4 * from, at, -moved);
        add_to(session + FRONT + 4 * to, at, moved);
        expected_seal(session);
        count_change(&changed.moved, t, session);
    }
}

/* Fewer blocks than there were, or more, under check words that are right. */
static void try_counts(const trip *t)
{
    for (int count = 0; count < 256; count++) {
        uint8_t session[SESSION_ROOM];
        memcpy(session, t->session, sizeof session);
        session[1] = (uint8_t)count;
        expected_seal(session);
        count_change(&changed.moved, t, session);
    }
}

/* The front's rules are the same with blocks behind it: with the check word put right they are tried without. */
static void try_changes(const trip *t)
{
    try_flips(t);
    try_pairs(t);
    try_past(t);
    try_counts(t);
    try_rears(t);
    try_learnings(t);
    if (expected_blocks(t->session) == 0) {
        try_sealed_front(t);
    } else {
        try_sealed_blocks(t);
        try_moves(t);
    }
}

void run_flips(void)
{
    static trip t;
    trip_begin(&t, SLOW, NO_BLOCKS);
    try_changes(&t);
    for (unsigned state = 0; state < 6; state++) {
        if (trip_to_state(&t, state, SLOW, NO_BLOCKS))
            try_changes(&t);
        if (trip_to_state(&t, state, SLOW, FEW_BLOCKS))
            try_changes(&t);
    }
    trip_begin(&t, SLOW, MOST_BLOCKS);
    try_changes(&t);
}

/* ---- random sessions, and random everything */

/* A and B at the edge of what their sum may be: of the set pressure, or of what equalization was taken from. */
static void balance(second_brakes *k, int64_t set)
{
    bool emergency = k->state == 3 || k->state == 4;
    int64_t weight = emergency ? 12 : 5;
    k->b = (weight * (set - k->a) + 1) / 2 + made_below(3) - 1;
    k->b = k->b < 0 ? 0 : k->b;
    if (made_once_in(2))
        k->equalization = (weight * k->a + 2 * k->b) / (emergency ? 14 : 7) - made_below(2);
    k->equalization = k->equalization < 0 ? 0 : k->equalization;
}

/* What an opening gives, mostly with one value a step off, and now and then as if a sample had been taken. */
static void random_opening(second_session *held)
{
    second_brakes *k = &held->brakes;
    int64_t *const values[] = {&k->state,      &k->hold,      &k->a,         &k->b,        &k->equalization, &k->fall,
                               &k->last_front, &k->last_rear, &k->last_time, &held->cause, &held->emergency};
    int64_t set = held->train.set;
    *k = (second_brakes){.hold = set, .a = set};
    held->cause = held->emergency = 0;
    held->begun = made_once_in(4);
    int64_t *value = values[made_below(sizeof values / sizeof *values)];
    if (!made_once_in(8))
        *value += *value > 0 && made_once_in(2) ? -1 : 1;
}

/* Held values in and just out of their ranges. */
static void random_brakes(second_session *held)
{
    second_brakes *k = &held->brakes;
    uint32_t set = (uint32_t)held->train.set;
    held->begun = !made_once_in(8);
    held->cause = made_about(0, 8);
    held->emergency = made_once_in(2) ? 0 : made_about(0, 8);
    k->state = made_about(0, 5);
    k->a = made_once_in(2) ? made_about(0, set) : set - made_below(1600);
    uint32_t part_of_b = made_once_in(2) ? 1 : 4;
    k->b = k->state == 0 || k->state == 5 ? made_once_in(10) : made_about(0, 9434) / part_of_b;
    k->equalization = made_about(0, 6 * set / 7);
    if (k->state >= 1 && k->state <= 4 && k->a <= set && set - k->a < 1600 && made_once_in(2))
        balance(k, set);
    k->fall = made_about(0, 3142);
    k->hold = made_about(0, 16000);
    k->last_front = made_about(0, 16000);
    k->last_rear = made_about(0, 16000);
}

static void random_session(const trip *t, uint8_t *bytes)
{
    expected_session held;
    if (!expected_held(part_of(t->session, t->session_bytes), &held))
        return;
    if (made_once_in(4))
        random_opening(&held.now);
    else
        random_brakes(&held.now);
    expected_bytes(&held, bytes);
    random_rear(bytes, t->time);
    random_learning(bytes, t->time);
}

/* A session of the right length, mark and check words, mostly, and noise else. */
static part noise_session(uint8_t *room)
{
    made_noise(room, SESSION_ROOM);
    room[0] = made_once_in(16) ? EARLIER_MARK : EXPECTED_MARK;
    if (!made_once_in(8))
        room[1] = (uint8_t)(made_once_in(2) ? 0x55 : made_below(66));
    if (!made_once_in(4))
        expected_seal(room);
    return part_of(room, made_once_in(4) ? made_below(SESSION_ROOM) : BUONGILACH_SESSION_BYTES);
}

static void try_noise(void)
{
    static uint8_t room[4][SESSION_ROOM];
    part parts[4] = {noise_session(room[0])};
    for (int i = 1; i < 4; i++) {
        made_noise(room[i], LONGEST);
        parts[i] = part_of(room[i], made_below(LONGEST));
    }
    try_sample(parts[0], parts[1], parts[2], parts[3], made_part(made_below(LONGEST)), NULL);
    try_judges(part_of(room[0], 4 * made_below(12)), part_of(room[1], 20), part_of(room[2], 12),
               part_of(room[3], 5 * made_below(4)));
}

void run_noise(void)
{
    static trip t;
    uint8_t session[BUONGILACH_SESSION_BYTES] = {0};
    uint8_t decisions[BUONGILACH_BOTH_DECISIONS_BYTES] = {0};
    for (int i = 0; i < NOISES; i++) {
        if (i % 100 == 0)
            trip_begin(&t, SLOW, ANY_BLOCKS);
        trip_go(&t);
        random_session(&t, session);
        try_sample(part_of(session, sizeof session), part_of(t.sample, sizeof t.sample), part_of(t.profile, t.profile_bytes),
                   part_of(t.targets, t.targets_bytes), part_of(decisions, sizeof decisions), NULL);
        try_noise();
    }
}
