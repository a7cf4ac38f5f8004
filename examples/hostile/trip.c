/*
 * trip.c - see trip.h.
 */
#include "trip.h"

#include "made.h"

#include <string.h>

enum { LONG_PROFILE = 600 };

const block_range ANY_BLOCKS = {0, 64}, NO_BLOCKS = {0, 0}, FEW_BLOCKS = {1, 5}, MOST_BLOCKS = {64, 64};

/* The bits of the least reading that is not below so many hundredths: rounded down, it is just these. */
static uint32_t pressure_of(uint32_t hundredths)
{
    uint32_t bits = made_reading(hundredths);
    float psi;
    memcpy(&psi, &bits, sizeof psi);
    return 100.0 * psi < hundredths ? bits + 1 : bits;
}

void trip_readings(trip *t, uint32_t front, bool present, uint32_t rear)
{
    t->front = front;
    made_sample(t->sample, t->time, t->head, made_reading(t->speed), pressure_of(front), present, pressure_of(rear));
}

void trip_rear(trip *t, bool present)
{
    trip_readings(t, t->front, present, made_once_in(3) ? made_below(16001) : t->front);
}

static bool mostly_present(void)
{
    return !made_once_in(5);
}

static uint32_t made_speed(const trip *t)
{
    return (uint32_t)made_between(t->slowest, t->fastest);
}

/* Behind the consist, once that has its weight. The second program looks through the whole profile for each block at each step:
 * on a long one a fast train has few. */
static void make_blocks(trip *t)
{
    bool slow = t->fastest > 2 * SLOW && t->profile_bytes > LONG_PROFILE;
    t->consist_bytes = made_blocks(t->consist, slow ? 0 : t->blocks.least, slow ? 2 : t->blocks.most);
}

/* By the default's own call, or by the one that takes the choice; over noise, or over the session before. */
static void open_session(trip *t)
{
    uint8_t before[SESSION_ROOM];
    part consist = part_of(t->consist, t->consist_bytes);
    uint32_t everlasting = made_once_in(2) ? 0 : choices[made_below(CHOICES)];
    made_noise(before, sizeof before);
    if (made_once_in(2))
        memcpy(before, t->session, BUONGILACH_SESSION_BYTES);
    if (everlasting == 0 && made_once_in(2))
        try_open(part_of(before, t->session_bytes), consist, t->session);
    else
        try_open_with(part_of(before, t->session_bytes), consist, everlasting, t->session);
    second_open_with(&t->points, t->consist, t->consist_bytes, everlasting != 0 ? SECOND_EVERLASTING : SECOND_FIVE_SECONDS);
}

static void begin(trip *t)
{
    static const size_t rooms[] = {BUONGILACH_SESSION_BYTES, BUONGILACH_SESSION_BYTES + 1, SESSION_ROOM};
    t->session_bytes = rooms[made_below(sizeof rooms / sizeof *rooms)];
    made_consist(t->consist, &t->length);
    t->head = t->length + made_below(100000);
    t->profile_bytes = made_profile(t->profile, t->head + 1000, t->length + 1000);
    if (t->steepest)
        made_steepest(t->consist, t->profile, t->profile_bytes);
    if (t->rolling)
        t->profile_bytes = made_rolling(t->consist, t->profile, t->head, t->length);
    make_blocks(t);
    t->time = made_once_in(10) ? 16777210 : made_below(1000000);
    t->speed = made_speed(t);
    t->targets_bytes = t->rolling ? made_restrictions(t->targets, t->head, t->speed) : made_targets(t->targets, t->head);
    t->front = (uint32_t)made_between(7000, 11000);
    trip_rear(t, mostly_present());
    open_session(t);
}

static void begin_with(trip *t, bool steepest, bool rolling, uint32_t slowest, uint32_t fastest, block_range blocks)
{
    t->blocks = blocks;
    t->steepest = steepest;
    t->rolling = rolling;
    t->slowest = slowest;
    t->fastest = fastest;
    begin(t);
}

void trip_begin(trip *t, uint32_t fastest, block_range blocks)
{
    begin_with(t, false, false, 0, fastest, blocks);
}

void trip_run_away(trip *t)
{
    begin_with(t, true, false, 9 * FAST / 10, FAST, ANY_BLOCKS);
}

void trip_over_hills(trip *t, block_range blocks)
{
    begin_with(t, false, true, SLOW / 2, 3 * SLOW, blocks);
}

/* A pipe pressure that stays, sinks, falls fast or rises. */
static uint32_t next_front(uint32_t front, uint32_t elapsed)
{
    static const int changes[] = {0, 0, -60, -500, -1499, -1500, -3000, 90, 101, 400};
    int64_t next = (int64_t)front + changes[made_below(sizeof changes / sizeof *changes)] * (int64_t)elapsed;
    return next < 0 ? 0 : next > 16000 ? 16000 : (uint32_t)next;
}

/* The second program judges the same sample, in a session of its own. */
static void judge_beside(trip *t)
{
    uint8_t decisions[BUONGILACH_BOTH_DECISIONS_BYTES];
    second_judge(&t->points, t->sample, sizeof t->sample, t->profile, t->profile_bytes, t->targets, t->targets_bytes, decisions,
                 sizeof decisions);
    hold_learning(&t->points, t->session);
}

bool trip_offer(trip *t, uint32_t elapsed)
{
    uint8_t decisions[BUONGILACH_BOTH_DECISIONS_BYTES] = {0};
    unsigned refusal =
        try_sample(part_of(t->session, t->session_bytes), part_of(t->sample, sizeof t->sample),
                   part_of(t->profile, t->profile_bytes), part_of(t->targets, t->targets_bytes),
                   part_of(decisions, sizeof decisions), t->session);
    /* out of time, or off the profile */
    if (refusal != 0) {
        begin(t);
        return false;
    }
    judge_beside(t);
    t->time = (t->time + elapsed) & 0xFFFFFF;
    t->speed = made_speed(t);
    t->head += made_below(150);
    return true;
}

void trip_go_on(trip *t, uint32_t elapsed, bool present)
{
    if (!trip_offer(t, elapsed))
        return;
    t->front = next_front(t->front, elapsed);
    trip_rear(t, present);
}

void trip_go(trip *t)
{
    trip_go_on(t, (uint32_t)made_between(1, 5), mostly_present());
}

void trip_to_board(trip *t)
{
    t->targets_bytes = made_board(t->targets, t->head);
    t->speed += t->speed == 0;
    trip_rear(t, mostly_present());
}

void trip_retarget(trip *t)
{
    t->targets_bytes = made_targets(t->targets, t->head);
}

bool trip_to_state(trip *t, unsigned state, uint32_t fastest, block_range blocks)
{
    expected_session held;
    for (int samples = 0; samples < 2000; samples++) {
        /* some states come only early in a trip */
        if (samples % 40 == 0)
            trip_begin(t, fastest, blocks);
        trip_go(t);
        if (expected_held(part_of(t->session, t->session_bytes), &held) && held.now.begun && held.now.brakes.state == state)
            return true;
    }
    return false;
}
