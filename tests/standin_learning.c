/*
 * standin_learning.c - see standin.c: the application time, learnt from a sample and told.
 */
#include "standin.h"

#include <string.h>

enum { THREE_PSI = 300, LEAST = 1000, MOST = 240000, LATEST = 599, PRESSURE = 16000 };

/* What a sample shows, its brakes updated. */
typedef struct {
    int64_t state, equalization, set, time, front, rear;
    bool present;
} shown;

static shown shown_by(const uint8_t *next, part sample)
{
    return (shown){second_bits(next, EXPECTED_STATE, 5),
                   second_bits(next, EXPECTED_EQUALIZATION, 16),
                   second_bits(next, EXPECTED_CONSIST + 102, 14),
                   second_bits(next, EXPECTED_LAST_TIME, 24),
                   second_bits(next, EXPECTED_LAST_FRONT, 16),
                   second_bits(next, EXPECTED_LAST_REAR, 16),
                   second_bits(sample.bytes, 32, 1) == 1 || planted("sample: a lost rear teaches what it counts as")};
}

static int64_t application_in(const uint8_t *record)
{
    return second_bits(record, EXPECTED_APPLICATION, EXPECTED_APPLICATION_WIDTH);
}

void put_application(uint8_t *record, int64_t application)
{
    second_put_bits(record, EXPECTED_APPLICATION, EXPECTED_APPLICATION_WIDTH, application);
    expected_seal(record);
}

/* Seconds since then; 0 where a record that no run leaves names a later time. */
static int64_t since(int64_t then, const shown *now)
{
    return now->time > then ? now->time - then : 0;
}

/* ---- the line */

static int64_t slope_of(const second_point_sums *s)
{
    return s->n * s->tp - s->t * s->p;
}

static int64_t spread_of(const second_point_sums *s)
{
    return s->n * s->tt - s->t * s->t;
}

/* 100 times the final slope over the spread, taken as it falls. */
static int64_t final_fall(const second_point_sums *s, const shown *now)
{
    bool above = planted("sample: equalization itself is below it") ? now->rear > now->equalization
                                                                   : now->rear >= now->equalization;
    int64_t times = above && !planted("sample: 1.1 left out") ? 110 : 100;
    int64_t more = above && !planted("sample: 0.0933 left out") ? 933 : 0;
    return more * spread_of(s) - times * slope_of(s);
}

static __int128 quotient(__int128 above, __int128 below)
{
    __int128 whole = above / below, rest = above % below;
    if (planted("sample: the quotient down"))
        return whole - (rest < 0);
    if (planted("sample: the quotient away from 0") && rest < 0)
        return whole - 1;
    return whole + (rest > 0);
}

/* 0 for no result. */
static int64_t time_of(const second_point_sums *s, int64_t t_init, const shown *now)
{
    __int128 fall = final_fall(s, now), start = (__int128)s->tt * s->p - (__int128)s->t * s->tp;
    if (fall <= 0)
        return planted("sample: the most without a slope") ? MOST : 0;
    __int128 time = 1000 * (t_init + !planted("sample: the second left out"));
    time += quotient(100000 * (start - (__int128)now->equalization * spread_of(s)), fall);
    if (time > MOST)
        return planted("sample: no result past the range") ? 0 : MOST;
    if (time < LEAST)
        return planted("sample: no result short of the range") ? 0 : LEAST;
    return (int64_t)time;
}

/* ---- stage after stage */

static void turn_to(second_learning *l, second_stage stage)
{
    bool keeps = stage == SECOND_DONE && planted("sample: done keeps the sums");
    *l = keeps ? *l : (second_learning){0};
    l->stage = stage;
}

static bool levels_off(const second_point_sums *all, const second_point_sums *before, int64_t fall, int64_t seconds)
{
    const second_point_sums *s = planted("sample: the line before this point levels off") ? before : all;
    int64_t judged = 4 + planted("sample: judged from the fifth point on") - planted("sample: judged from the third point on");
    int64_t half = planted("sample: exactly one half ends") ? 1 : 0;
    return all->n >= judged && 2 * fall * spread_of(s) < seconds * -slope_of(s) + half;
}

/* The time that a further point teaches, or what is in force. */
static int64_t take_point(second_learning *l, const shown *now, int64_t in_force)
{
    int64_t t = since(l->fell_at + l->t_init, now), p = now->rear;
    second_point_sums before = l->sums, all = {before.n + 1, before.t + t, before.tt + t * t, before.p + p, before.tp + t * p};
    if (before.n == (planted("sample: 255 points") ? 255 : 256)) {
        if (!planted("sample: a 257th point is left out"))
            turn_to(l, SECOND_DONE);
        return in_force;
    }
    if (levels_off(&all, &before, l->pressure - p, t - l->last_t)) {
        int64_t taught = time_of(planted("sample: the result with this point") ? &all : &before, l->t_init, now);
        turn_to(l, SECOND_DONE);
        return taught != 0 && !planted("sample: the learnt time not kept") ? taught : in_force;
    }
    l->sums = all;
    l->last_t = planted("sample: the last t not kept") ? 0 : t;
    l->pressure = p;
    return in_force;
}

static bool rear_fallen(const second_learning *l, const shown *now)
{
    int64_t from = planted("sample: the rear falls from the set pressure") ? now->set : l->pressure;
    return now->rear <= from - THREE_PSI - planted("sample: the rear falls by more than 3 psi");
}

static int64_t take_rear(second_learning *l, const shown *now, int64_t in_force)
{
    if (l->stage == SECOND_FRONT_FELL) {
        l->stage = SECOND_REAR_KNOWN;
        l->pressure = now->rear;
        l->fell_at = planted("sample: the timer starts at the first rear") ? now->time : l->fell_at;
    } else if (l->stage == SECOND_REAR_FALLS) {
        if (now->rear < l->pressure + planted("sample: a rear that stays is a point"))
            return take_point(l, now, in_force);
    } else if (rear_fallen(l, now)) {
        l->stage = SECOND_REAR_FALLS;
        l->t_init = planted("sample: t_INIT not kept") ? 0 : since(l->fell_at, now);
        l->pressure = now->rear;
        l->sums = (second_point_sums){.n = 1, .p = now->rear};
    }
    return in_force;
}

static bool in_service(int64_t state)
{
    return state == 1 || (state == 2 && !planted("sample: nothing learnt while holding"))
        || (state == 3 && planted("sample: learning in an emergency"));
}

static int64_t taught_by(second_learning *l, const shown *now, int64_t in_force)
{
    bool fallen = now->front <= now->set - THREE_PSI - planted("sample: the front falls by more than 3 psi");
    if (!in_service(now->state)) {
        if (!planted("sample: a release keeps the points") || now->state != 5)
            turn_to(l, SECOND_WAITING);
    } else if (l->stage == SECOND_DONE && !planted("sample: done waits at once")) {
        if (!fallen && !planted("sample: done for good"))
            turn_to(l, SECOND_WAITING);
    } else if (l->stage == SECOND_WAITING || l->stage == SECOND_DONE) {
        turn_to(l, fallen ? SECOND_FRONT_FELL : SECOND_WAITING);
        l->fell_at = fallen ? now->time : 0;
        if (fallen && now->present)
            return take_rear(l, now, in_force);
    } else if (since(l->fell_at, now) >= (planted("sample: 600 seconds are not too long") ? 601 : 600)) {
        turn_to(l, planted("sample: 600 seconds wait") ? SECOND_WAITING : SECOND_DONE);
    } else if (now->present) {
        return take_rear(l, now, in_force);
    }
    return in_force;
}

void learn(uint8_t *next, const uint8_t *before, part sample)
{
    second_learning l;
    shown now = shown_by(next, sample);
    expected_read_learning(before, &l);
    int64_t in_force = application_in(before);
    int64_t taught = planted("sample: nothing is learnt") ? in_force : taught_by(&l, &now, in_force);
    if (planted("sample: the held fall renewed") && taught != in_force)
        second_put_bits(next, EXPECTED_FALL, 16, 2000 * now.set / (7 * taught));
    expected_put_learning(next, &l);
    put_application(next, taught);
}

/* ---- records and what is told of them */

static int64_t at_most(int64_t number, int64_t most)
{
    return number < most ? number : most;
}

void leave_learning_rule_out(uint8_t *record)
{
    second_learning l;
    expected_read_learning(record, &l);
    int64_t n = l.sums.n;
    if (planted("sample: a stage above 4") && l.stage > SECOND_DONE)
        l.stage = SECOND_DONE;
    if (planted("sample: t_INIT above 599"))
        l.t_init = at_most(l.t_init, LATEST);
    if (planted("sample: a last t above 599"))
        l.last_t = at_most(l.last_t, LATEST);
    if (planted("sample: a pressure above 160 psi"))
        l.pressure = at_most(l.pressure, PRESSURE);
    if (planted("sample: 257 points"))
        l.sums.n = at_most(n, 256);
    if (planted("sample: a sum of t past its bound"))
        l.sums.t = at_most(l.sums.t, LATEST * n);
    if (planted("sample: a sum of t x t past its bound"))
        l.sums.tt = at_most(l.sums.tt, LATEST * LATEST * n);
    if (planted("sample: a sum of p past its bound"))
        l.sums.p = at_most(l.sums.p, PRESSURE * n);
    if (planted("sample: a sum of t x p past its bound"))
        l.sums.tp = at_most(l.sums.tp, LATEST * PRESSURE * n);
    if (planted("sample: learnt before any sample") && second_bits(record, EXPECTED_SAMPLED, 1) == 0)
        turn_to(&l, SECOND_WAITING);
    expected_put_learning(record, &l);
    expected_seal(record);
}

uint32_t buongilach_application(const uint8_t *session, size_t session_bytes)
{
    uint32_t due = expected_application(part_of(session, session_bytes));
    bool whole = session_bytes >= BUONGILACH_SESSION_BYTES;
    if (planted("application: 326 bytes only") && session_bytes > BUONGILACH_SESSION_BYTES)
        return 0;
    if (planted("application: by the length alone") && whole)
        return (uint32_t)application_in(session);
    if (planted("application: the record's own size will do") && !whole && session_bytes >= EXPECTED_FRONT)
        return (uint32_t)application_in(session);
    if (planted("application: reads a byte too many"))
        return due + (((const volatile uint8_t *)session)[session_bytes] & 0);
    if (planted("application: writes what it reads") && due != 0)
        *(uint8_t *)(uintptr_t)session ^= 1;
    if (planted("application: in 16 bits"))
        return due & 0xFFFF;
    return planted("application: in seconds") ? due / 1000 : due;
}
