/*
 * trips.c - see trips.h.
 */
#include "trips.h"

#include "made.h"
#include "trip.h"

enum {
    TRIPS = 300,
    RUNAWAYS = 6,
    HILLS = 100,
    BOARDS_A_STATE = 30,
    SILENCES = 300,
    SAMPLES = 15
};

unsigned long trips_run_away;

/* Some of the sample's five parts damaged, shortened or made longer. */
static void offer_damaged(const trip *t)
{
    static uint8_t room[5][LENT_MOST];
    uint8_t decisions[BUONGILACH_BOTH_DECISIONS_BYTES] = {0};
    const void *from[5] = {t->session, t->sample, t->profile, t->targets, decisions};
    size_t counts[5] = {t->session_bytes, sizeof t->sample, t->profile_bytes, t->targets_bytes, sizeof decisions};
    part parts[5];
    uint32_t wrong = made_below(32);
    for (int i = 0; i < 5; i++) {
        bool resize = wrong >> i & made_below(2);
        parts[i] = made_resized(room[i], from[i], counts[i], resize ? made_below((uint32_t)counts[i] + 10) : counts[i]);
        if (wrong >> i & 1 && !resize)
            made_damage(room[i], parts[i].count);
    }
    if (made_once_in(4)) {
        uint32_t reading = made_odd_reading();
        second_put_bits(room[1], 64 + 32 * (int)made_below(3), 32, reading);
    }
    try_sample(parts[0], parts[1], parts[2], parts[3], parts[4], NULL);
    try_judges(part_of(t->consist, t->consist_bytes), parts[1], parts[2], parts[3]);
}

void run_trips(void)
{
    static trip t;
    for (int i = 0; i < TRIPS; i++) {
        trip_begin(&t, i % 10 == 0 ? FAST : 2 * SLOW, ANY_BLOCKS);
        for (int j = 0; j < SAMPLES; j++) {
            offer_damaged(&t);
            trip_go(&t);
        }
    }
}

/* Walks up to the greatest speed there is. */
void run_runaways(void)
{
    static trip t;
    for (int i = 0; i < RUNAWAYS; i++) {
        trip_run_away(&t);
        for (int j = 0; j < SAMPLES; j++) {
            offer_damaged(&t);
            unsigned long before = tried.unstopped;
            trip_go(&t);
            trips_run_away += tried.unstopped - before;
        }
    }
}

/* Walks that speed up again, before targets that the train is not faster than, and such as blocks make longer or shorter. */
void run_hills(void)
{
    static trip t;
    for (int i = 0; i < HILLS; i++) {
        trip_over_hills(&t, i % 2 == 0 ? ANY_BLOCKS : FEW_BLOCKS);
        for (int j = 0; j < 3; j++) {
            offer_damaged(&t);
            trip_go(&t);
        }
    }
}

/* Emergency called in each brake state, and what stands over other lists. */
void run_boards(void)
{
    static trip t;
    for (unsigned state = 0; state < 6; state++)
        for (int i = 0; i < BOARDS_A_STATE; i++) {
            if (trip_to_state(&t, state, 2 * SLOW, ANY_BLOCKS))
                trip_to_board(&t);
            for (int j = 0; j < 3; j++) {
                trip_go(&t);
                trip_retarget(&t);
                offer_damaged(&t);
            }
        }
}

/* The rear is heard, then lost in a sample or two, the last of them so many seconds later; what comes then may be lost too. */
static void fall_silent(trip *t, uint32_t silence)
{
    uint32_t first = (uint32_t)(silence > 5 ? made_between(silence - 5, 5) : made_between(1, silence));
    trip_rear(t, true);
    trip_go_on(t, first, false);
    if (first < silence)
        trip_go_on(t, silence - first, false);
    offer_damaged(t);
    trip_go_on(t, (uint32_t)made_between(1, 5), made_once_in(2));
}

/* Silences about 5 seconds, and from the first sample on; half of them where the penalty is called. */
void run_silences(void)
{
    static trip t;
    for (int i = 0; i < SILENCES; i++) {
        trip_begin(&t, 3 * SLOW, i % 3 == 0 ? NO_BLOCKS : FEW_BLOCKS);
        if (i % 2 == 0)
            trip_to_board(&t);
        for (uint32_t lost = made_below(4); lost > 0; lost--) {
            trip_rear(&t, false);
            trip_go(&t);
        }
        for (uint32_t silence = 4; silence < 8; silence++)
            fall_silent(&t, silence);
    }
}
