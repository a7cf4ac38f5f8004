/*
 * sizes.c - see sizes.h.
 */
#include "sizes.h"

#include "made.h"
#include "trip.h"

#include <string.h>

enum {
    SIZED_TRIPS = 3,
    LONGEST_SESSION = SESSION_ROOM,
    LONGEST_CONSIST = BUONGILACH_CONSIST_BYTES_MOST + 10,
    LONGEST_PROFILE = 1600
};

/* Each size twice, so that the buffer lies at both sides of its room. */
static void try_sizes_of(const trip *t, int place, size_t longest)
{
    static uint8_t room[LENT_MOST];
    uint8_t decisions[LONGEST] = {0};
    const part whole[5] = {part_of(t->session, t->session_bytes), part_of(t->sample, sizeof t->sample),
                           part_of(t->profile, t->profile_bytes), part_of(t->targets, t->targets_bytes),
                           part_of(decisions, BUONGILACH_BOTH_DECISIONS_BYTES)};
    for (size_t turn = 0; turn < 2 * (longest + 1); turn++) {
        part parts[5];
        memcpy(parts, whole, sizeof parts);
        parts[place] = made_resized(room, whole[place].bytes, whole[place].count, turn / 2);
        try_sample(parts[0], parts[1], parts[2], parts[3], parts[4], NULL);
        try_judges(part_of(t->consist, t->consist_bytes), parts[1], parts[2], parts[3]);
    }
}

static void open_both(part session, part consist)
{
    try_open(session, consist, NULL);
    try_open_with(session, consist, choices[made_below(CHOICES)], NULL);
}

static void try_sizes_of_opening(const trip *t)
{
    static uint8_t room[LENT_MOST];
    for (size_t turn = 0; turn < 2 * (LONGEST_SESSION + 1); turn++)
        open_both(made_part(turn / 2), part_of(t->consist, t->consist_bytes));
    for (size_t size = 0; size <= LONGEST_CONSIST; size++) {
        part consist = made_resized(room, t->consist, t->consist_bytes, size);
        open_both(made_part(made_once_in(4) ? made_below(LONGEST_SESSION) : BUONGILACH_SESSION_BYTES), consist);
        try_judges(consist, made_part(size % LONGEST), made_part(size % LONGEST), made_part(size % LONGEST));
    }
}

static size_t longest(int place)
{
    return place == 0 ? LONGEST_SESSION : place == 2 ? LONGEST_PROFILE : LONGEST;
}

static void try_sizes(const trip *t)
{
    for (int place = 0; place < 5; place++)
        try_sizes_of(t, place, longest(place));
    try_sizes_of_opening(t);
}

void run_sizes(void)
{
    static const block_range *const wanted[SIZED_TRIPS] = {&NO_BLOCKS, &FEW_BLOCKS, &MOST_BLOCKS};
    static trip t;
    for (int i = 0; i < SIZED_TRIPS; i++)
        if (trip_to_state(&t, made_below(6), SLOW, *wanted[i]))
            try_sizes(&t);
}
