/*
 * rears.c - see rears.h.
 */
#include "rears.h"

#include "made.h"
#include "sessions.h"

#include <string.h>

enum { BITS_24 = 1 << 24 };

static void put_heard(uint8_t *session, uint32_t heard)
{
    second_put_bits(session, EXPECTED_HEARD, EXPECTED_HEARD_WIDTH, heard);
    expected_seal(session);
}

static void turn_choice(uint8_t *session)
{
    second_put_bits(session, EXPECTED_CHOICE, 1, !second_bits(session, EXPECTED_CHOICE, 1));
    expected_seal(session);
}

static change *kind_of(const uint8_t *session, uint32_t heard)
{
    if (heard > BITS_24)
        return &changed.heard_too_late;
    return heard > 0 && second_bits(session, EXPECTED_SAMPLED, 1) == 0 ? &changed.heard_too_soon : &changed.heard;
}

/* Under both choices. */
static void try_heard(const trip *t, uint32_t heard)
{
    uint8_t session[SESSION_ROOM];
    memcpy(session, t->session, sizeof session);
    put_heard(session, heard);
    count_change(kind_of(session, heard), t, session);
    turn_choice(session);
    count_change(kind_of(session, heard), t, session);
}

/* Never, at the first second, at the last one that there is, and past it; some seconds before the sample, and after it. */
static void try_hearings(const trip *t)
{
    static const uint32_t ends[] = {0, 1, 2, BITS_24 - 1, BITS_24, BITS_24 + 1, BITS_24 + 2, 2 * BITS_24 - 1};
    for (size_t i = 0; i < sizeof ends / sizeof *ends; i++)
        try_heard(t, ends[i]);
    for (uint32_t seconds = 0; seconds < 10 && seconds <= t->time; seconds++) {
        try_heard(t, t->time + 1 - seconds);
        try_heard(t, t->time + 1 + seconds);
    }
}

/* Another session, and as open as it was. */
static void try_other_choice(const trip *t)
{
    uint8_t session[SESSION_ROOM];
    memcpy(session, t->session, sizeof session);
    turn_choice(session);
    count_change(&changed.choice, t, session);
}

/* The same session as the release before laid it out: 44 bytes, and nothing learnt. */
static void lay_out_earlier(const uint8_t *session, uint8_t *earlier)
{
    enum { FRONT = 44, CONSIST = 24, CHECK = 40 };
    size_t blocks_bytes = expected_blocks(session) * BUONGILACH_BLOCK_BYTES;
    memset(earlier, 0, SESSION_ROOM);
    memcpy(earlier, session, CONSIST);
    earlier[0] = EARLIER_MARK;
    memcpy(earlier + CONSIST, session + EXPECTED_CONSIST / 8, BUONGILACH_CONSIST_BYTES);
    expected_seal_bytes(earlier, CHECK);
    memcpy(earlier + FRONT, session + EXPECTED_FRONT, blocks_bytes);
    if (blocks_bytes > 0)
        expected_seal_bytes(earlier + FRONT, blocks_bytes);
}

/* The mark of the release before, over its own layout and over this one. */
static void try_earlier(const trip *t)
{
    uint8_t session[SESSION_ROOM];
    lay_out_earlier(t->session, session);
    count_change(&changed.earlier, t, session);
    memcpy(session, t->session, sizeof session);
    session[0] = EARLIER_MARK;
    expected_seal(session);
    count_change(&changed.earlier, t, session);
}

void try_rears(const trip *t)
{
    trip lost = *t;
    trip_rear(&lost, false);
    try_other_choice(&lost);
    try_hearings(&lost);
    try_earlier(&lost);
}

void random_rear(uint8_t *session, uint32_t time)
{
    uint32_t about = made_once_in(8) ? BITS_24 + made_below(3) : time + 2 - made_below(12);
    if (made_once_in(2))
        turn_choice(session);
    if (second_bits(session, EXPECTED_SAMPLED, 1) == 1 || made_once_in(4))
        put_heard(session, made_once_in(4) ? 0 : about & (2 * BITS_24 - 1));
}
