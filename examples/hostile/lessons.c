/*
 * lessons.c - see lessons.h.
 */
#include "lessons.h"

#include "learnings.h"
#include "made.h"

#include <stdio.h>
#include <string.h>

enum { LESSONS = 150, THREE_PSI = 300, LONGEST_LESSON = 700 };

/* A service application as the train's two ends show it, in hundredths of a psi. */
typedef struct {
    uint32_t set, low;    /* the front before it, and in it */
    uint32_t start, last; /* the rear before it, and where it levels off */
    uint32_t delay;       /* seconds from the front's fall to the rear's */
    uint32_t slope;       /* of the rear's, a second */
} lesson;

static unsigned long taught_anew, otherwise, waited_at_half, ended_below_half;

static second_stage stage_of(const trip *t)
{
    second_learning now;
    expected_read_learning(t->session, &now);
    return now.stage;
}

static uint32_t set_of(const trip *t)
{
    return (uint32_t)second_bits(t->consist, 102, 14);
}

static uint32_t less(uint32_t pressure, uint32_t by)
{
    return pressure > by ? pressure - by : 0;
}

/* What a rear shows: it stays, loses 3 psi at once, falls, and levels off. */
static uint32_t rear_at(const lesson *l, uint32_t seconds)
{
    if (seconds < l->delay)
        return l->start;
    uint32_t rear = less(l->start, THREE_PSI + l->slope * (seconds - l->delay));
    return rear >= l->last ? rear : less(l->last, (l->last - rear) / 16);
}

/* ---- a lesson's samples */

/* A sample with these pressures, and the next so much later. */
static bool show(trip *t, uint32_t front, bool present, uint32_t rear, uint32_t elapsed)
{
    trip_readings(t, front, present, rear);
    return trip_offer(t, elapsed);
}

/* A few samples before it; the front falls slower than in an emergency. */
static bool apply(trip *t, const lesson *l, bool present)
{
    uint32_t seconds = (l->set - l->low) / 1499 + 1;
    return show(t, l->set, true, l->start, (uint32_t)made_between(1, 5)) && show(t, l->set, true, l->start, seconds)
        && show(t, l->low, present, rear_at(l, 0), 1);
}

/* The rear is heard mostly, and now and then is silent for a while. */
static bool is_heard(uint32_t *silent)
{
    if (*silent > 0) {
        --*silent;
        return false;
    }
    *silent = made_once_in(12) ? made_below(4) : 0;
    return !made_once_in(8);
}

/* The application stands until nothing is learnt any more, and some samples longer. */
static bool hold_on(trip *t, const lesson *l, uint32_t step)
{
    uint32_t silent = 0, more = made_below(4);
    for (uint32_t seconds = 1; seconds < LONGEST_LESSON; ) {
        uint32_t elapsed = step != 0 ? step : (uint32_t)made_between(1, made_once_in(4) ? 5 : 2);
        if (!show(t, l->low, step != 0 || is_heard(&silent), rear_at(l, seconds), elapsed))
            return false;
        seconds += elapsed;
        if (stage_of(t) == SECOND_DONE && more-- == 0)
            return true;
    }
    return true;
}

/* A learnt time serves from here on: whether the sample that is ready is decided otherwise by the typed one. */
static void count_otherwise(const trip *t)
{
    uint8_t typed[BUONGILACH_SESSION_BYTES], next[BUONGILACH_SESSION_BYTES], decisions[2][BUONGILACH_BOTH_DECISIONS_BYTES];
    part sample = part_of(t->sample, sizeof t->sample), profile = part_of(t->profile, t->profile_bytes);
    part targets = part_of(t->targets, t->targets_bytes);
    memcpy(typed, t->session, sizeof typed);
    second_put_bits(typed, EXPECTED_APPLICATION, EXPECTED_APPLICATION_WIDTH, second_bits(t->consist, 74, 18));
    expected_seal(typed);
    if (expected_sample(part_of(t->session, sizeof typed), sample, profile, targets, 16, next, decisions[0]) == 0
        && expected_sample(part_of(typed, sizeof typed), sample, profile, targets, 16, next, decisions[1]) == 0)
        otherwise += memcmp(decisions[0], decisions[1], sizeof decisions[0]) != 0;
}

/* A deeper reduction, a release or an emergency, until the brakes are charged. */
static bool go_on(trip *t, const lesson *l)
{
    uint32_t change = made_below(4);
    if (change == 0 && !show(t, less(l->low, 400), true, less(l->last, 400), 1))
        return false;
    if (change == 1 && !show(t, less(l->low, 1500), true, less(l->last, 200), 1))
        return false;
    for (int i = 0; i < 6; i++)
        if (!show(t, l->set, true, l->set, 5))
            return false;
    return true;
}

/* ---- kinds of lesson */

static lesson any_lesson(const trip *t)
{
    uint32_t set = set_of(t), drop = made_once_in(4) ? 299 + made_below(3) : 302 + made_below(2300);
    uint32_t start = made_once_in(4) ? set / 2 + made_below(1500) : set - made_below(400);
    return (lesson){set, set - drop, start, less(start, 700 + made_below(3000)), made_below(made_once_in(4) ? 300 : 20),
                    1 + made_below(made_once_in(3) ? 12 : 300)};
}

/* Learning once and again; in some, the application is over before the rear has levelled off. */
static void teach_any(trip *t)
{
    unsigned long before = tried.taught[0] + tried.taught[1];
    for (int i = 0; i < 3; i++) {
        lesson l = any_lesson(t);
        if (!apply(t, &l, !made_once_in(4)) || (!made_once_in(5) && !hold_on(t, &l, 0)))
            return;
        trip_readings(t, l.low, true, l.last);
        count_otherwise(t);
        if (!go_on(t, &l))
            return;
    }
    taught_anew += tried.taught[0] + tried.taught[1] >= before + 2;
}

/* Nothing for 600 seconds to the second, or for a second less and then more; or a fall that begins late. */
static void teach_too_long(trip *t)
{
    lesson l = {set_of(t), set_of(t) - 500, set_of(t), set_of(t) - 600, made_once_in(3) ? 580 + made_below(20) : LONGEST_LESSON, 2};
    if (apply(t, &l, true) && (made_once_in(2) || show(t, l.low, true, l.start, (uint32_t)made_between(1, 4))))
        hold_on(t, &l, 5);
}

/* A straight fall, a point a second, for longer than points are kept. */
static void teach_too_many(trip *t)
{
    lesson l = {set_of(t), set_of(t) - 2000, set_of(t) - 200, 0, made_below(10), 10 + made_below(12)};
    if (apply(t, &l, true))
        hold_on(t, &l, 1);
}

/* Two falls of 17 parts in two seconds and one of 7 in the third: the last slope is half of the line's, to the fraction, or just
 * less. The last point is mostly about where a first application equalizes, or there. */
static void teach_half(trip *t)
{
    uint32_t part = 1 + made_below(30), short_of = made_below(2), set = set_of(t), last = 5 * set / 7 + made_below(3) - 1;
    uint32_t rear = made_once_in(4) ? set - THREE_PSI : last + 41 * part - short_of;
    const uint32_t rears[] = {rear, rear - 17 * part, rear - 34 * part, rear - 41 * part + short_of};
    if (!show(t, set, true, rear + THREE_PSI, 1) || !show(t, set - 1000, true, rear + THREE_PSI, 1))
        return;
    for (size_t i = 0; i < sizeof rears / sizeof *rears; i++)
        if (!show(t, set - 1000, true, rears[i], 1))
            return;
    waited_at_half += !short_of && stage_of(t) == SECOND_REAR_FALLS;
    ended_below_half += short_of && stage_of(t) == SECOND_DONE;
}

void run_lessons(void)
{
    static void (*const kinds[])(trip *) = {teach_any, teach_any, teach_any, teach_any, teach_half, teach_too_long};
    static trip t;
    trip_begin(&t, SLOW, NO_BLOCKS);
    try_learnings(&t);
    trip_go(&t);
    try_learnings(&t);
    for (int i = 0; i < LESSONS; i++) {
        trip_begin(&t, SLOW, i % 3 == 0 ? FEW_BLOCKS : NO_BLOCKS);
        kinds[i % (int)(sizeof kinds / sizeof *kinds)](&t);
        if (i % 50 == 0) {
            trip_begin(&t, SLOW, NO_BLOCKS);
            teach_too_many(&t);
        }
    }
}

bool lessons_seen(void)
{
    return taught_anew > 0 && otherwise > 0 && waited_at_half > 0 && ended_below_half > 0;
}

void lessons_print(void)
{
    printf("; taught more than once %lu; decided otherwise than by the typed time %lu; exactly one half %lu, just below %lu",
           taught_anew, otherwise, waited_at_half, ended_below_half);
}
