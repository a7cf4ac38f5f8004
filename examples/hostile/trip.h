/*
 * trip.h - a train under way: a session, the ground, and the next sample.
 */
#ifndef TRIP_H
#define TRIP_H

#include "calls.h"

enum {
    SESSION_ROOM = BUONGILACH_SESSION_BYTES + 20,
    /* hundredths of a mph */
    SLOW = 1000, /* a short walk */
    FAST = 10000
};

/* How many blocks a train is to have. */
typedef struct {
    uint32_t least, most;
} block_range;

extern const block_range ANY_BLOCKS, NO_BLOCKS, FEW_BLOCKS, MOST_BLOCKS;

typedef struct {
    uint8_t session[SESSION_ROOM]; /* noise past what a session takes */
    size_t session_bytes;          /* as many as the calls are lent */
    second_session points;         /* the second program's from the opening on, which keeps the points that teach */
    uint8_t consist[BUONGILACH_CONSIST_BYTES_MOST];
    size_t consist_bytes;
    uint8_t profile[BUONGILACH_PROFILE_BYTES_MOST];
    uint8_t targets[BUONGILACH_TARGETS_BYTES_MOST];
    uint8_t sample[BUONGILACH_SAMPLE_BYTES];
    size_t profile_bytes, targets_bytes;
    uint32_t length, head, time, front, speed, slowest, fastest;
    block_range blocks;
    bool steepest, rolling;
} trip;

/* Opens a session, with any choice of what a lost rear counts as, and makes its first sample. No speed is above `fastest`, in
 * hundredths of a mph. */
void trip_begin(trip *t, uint32_t fastest, block_range blocks);

/* The same for a train that runs away: the one that gains most speed, at 90 mph or more. */
void trip_run_away(trip *t);

/* The same for a train with weak brakes on ups and downs, before targets that allow its speed or more. */
void trip_over_hills(trip *t, block_range blocks);

/* Offers the sample; accepted, the next one comes so many seconds later, its pressures still to be told. False where it was
 * refused, and another trip has begun. */
bool trip_offer(trip *t, uint32_t elapsed);

/* The pressures of the sample that is ready. */
void trip_readings(trip *t, uint32_t front, bool present, uint32_t rear);

/* Offers the sample; accepted, the session and the sample are the next ones. */
void trip_go(trip *t);

/* The same; the next sample comes so many seconds later, and its rear is present or lost. */
void trip_go_on(trip *t, uint32_t elapsed, bool present);

/* The sample that is ready has a rear, or has lost it. */
void trip_rear(trip *t, bool present);

/* The next sample is at a board that calls penalty and emergency. */
void trip_to_board(trip *t);

/* Other targets from here on. */
void trip_retarget(trip *t);

/* Goes on to a session in that brake state, a sample ready for it; false where none comes. */
bool trip_to_state(trip *t, unsigned state, uint32_t fastest, block_range blocks);

#endif
