/*
 * expected_learning.c - see expected.h: what a session learns of its application time, by docs/DECISIONS.md 157 to 164. A record
 * holds sums in the place of points; what is reckoned from sums is the second program's.
 */
#include "expected.h"

enum { THREE_PSI = 300, ENDS = 600, JUDGED = 4, LATEST = ENDS - 1, MOST_PRESSURE = 16000 };

/* Stage, when the front fell, t_INIT, the last t, p0 or the last p, N, and the sums of t, t x t, p and t x p. */
enum { FIELDS = 10 };
static const int at[FIELDS] = {192, 196, 220, 232, 244, 260, 269, 287, 314, 336};
static const int width[FIELDS] = {4, 24, 12, 12, 16, 9, 18, 27, 22, 32};

void expected_read_learning(const uint8_t *session, second_learning *now)
{
    int64_t fields[FIELDS];
    for (int i = 0; i < FIELDS; i++)
        fields[i] = second_bits(session, at[i], width[i]);
    *now = (second_learning){.stage = (second_stage)fields[0], .fell_at = fields[1], .t_init = fields[2], .last_t = fields[3],
                             .pressure = fields[4], .sums = {fields[5], fields[6], fields[7], fields[8], fields[9]}};
}

void expected_put_learning(uint8_t *session, const second_learning *now)
{
    const second_point_sums *sums = &now->sums;
    const int64_t fields[FIELDS] = {now->stage, now->fell_at, now->t_init, now->last_t, now->pressure,
                                    sums->n,    sums->t,      sums->tt,    sums->p,     sums->tp};
    for (int i = 0; i < FIELDS; i++)
        second_put_bits(session, at[i], width[i], fields[i]);
}

static bool is_nothing(const second_learning *now)
{
    const second_point_sums *sums = &now->sums;
    return now->stage == SECOND_WAITING && (now->fell_at | now->t_init | now->last_t | now->pressure) == 0
        && (sums->n | sums->t | sums->tt | sums->p | sums->tp) == 0;
}

bool expected_learning_right(const second_learning *now, bool begun)
{
    const second_point_sums *sums = &now->sums;
    return now->stage <= SECOND_DONE && now->t_init <= LATEST && now->last_t <= LATEST && now->pressure <= MOST_PRESSURE
        && sums->n <= SECOND_POINTS_MOST && sums->t <= LATEST * sums->n && sums->tt <= LATEST * LATEST * sums->n
        && sums->p <= MOST_PRESSURE * sums->n && sums->tp <= LATEST * MOST_PRESSURE * sums->n && (begun || is_nothing(now));
}

/* ---- once a sample */

static void turn_to(second_learning *now, second_stage stage)
{
    *now = (second_learning){.stage = stage};
}

static second_point_sums with_point(second_point_sums sums, int64_t t, int64_t p)
{
    return (second_point_sums){sums.n + 1, sums.t + t, sums.tt + t * t, sums.p + p, sums.tp + t * p};
}

/* Seconds since then; 0 where that is yet to come, as no run leaves it. */
static int64_t since(int64_t then, const second_brakes *k)
{
    return k->last_time > then ? k->last_time - then : 0;
}

/* The point that this sample adds, and the sums with it. */
typedef struct {
    int64_t t, p;
    second_point_sums all;
} next_point;

static next_point next_of(const second_learning *now, const second_brakes *k)
{
    int64_t t = since(now->fell_at + now->t_init, k), p = k->last_rear;
    return (next_point){t, p, with_point(now->sums, t, p)};
}

static bool levels_off(const second_learning *now, const next_point *next)
{
    return next->all.n >= JUDGED && second_levels_off(&next->all, next->p - now->pressure, next->t - now->last_t);
}

/* Steps 9 and 10. */
static void fall_further(expected_session *session)
{
    second_learning *now = &session->learning;
    const second_brakes *k = &session->now.brakes;
    if (now->sums.n == SECOND_POINTS_MOST) {
        turn_to(now, SECOND_DONE);
        return;
    }
    next_point next = next_of(now, k);
    if (levels_off(now, &next)) {
        int64_t learnt = second_learnt_time(&now->sums, now->t_init, next.p, k->equalization);
        session->now.train.application = learnt != 0 ? learnt : session->now.train.application;
        turn_to(now, SECOND_DONE);
    } else {
        now->sums = next.all;
        now->last_t = next.t;
        now->pressure = next.p;
    }
}

/* Steps 6 to 10, of a rear that is present. */
static void take_rear(expected_session *session)
{
    second_learning *now = &session->learning;
    const second_brakes *k = &session->now.brakes;
    int64_t rear = k->last_rear;
    if (now->stage == SECOND_FRONT_FELL) {
        now->stage = SECOND_REAR_KNOWN;
        now->pressure = rear;
    } else if (now->stage == SECOND_REAR_FALLS) {
        if (rear < now->pressure)
            fall_further(session);
    } else if (rear <= now->pressure - THREE_PSI) {
        now->stage = SECOND_REAR_FALLS;
        now->t_init = since(now->fell_at, k);
        now->pressure = rear;
        now->sums = (second_point_sums){.n = 1, .p = rear};
    }
}

/* Steps 3 and 6: a rear that is present at the fall is p0. */
static void front_falls(expected_session *session, bool present)
{
    second_learning *now = &session->learning;
    *now = (second_learning){.stage = SECOND_FRONT_FELL, .fell_at = session->now.brakes.last_time};
    if (present)
        take_rear(session);
}

void expected_learn(expected_session *session, bool present)
{
    second_learning *now = &session->learning;
    const second_brakes *k = &session->now.brakes;
    bool fallen = k->last_front <= session->now.train.set - THREE_PSI;
    if (k->state != 1 && k->state != 2) {
        turn_to(now, SECOND_WAITING);
    } else if (now->stage == SECOND_DONE) {
        turn_to(now, fallen ? SECOND_DONE : SECOND_WAITING);
    } else if (now->stage == SECOND_WAITING) {
        if (fallen)
            front_falls(session, present);
    } else if (since(now->fell_at, k) >= ENDS) {
        turn_to(now, SECOND_DONE);
    } else if (present) {
        take_rear(session);
    }
}

/* ---- records that no run leaves */

/* Whether a field stands there that its stage has no use for. */
static bool is_untidy(const second_learning *now)
{
    second_learning unused = *now;
    if (now->stage == SECOND_REAR_FALLS)
        return false;
    if (now->stage == SECOND_REAR_KNOWN)
        unused.pressure = 0;
    if (now->stage == SECOND_REAR_KNOWN || now->stage == SECOND_FRONT_FELL)
        unused.fell_at = 0;
    unused.stage = SECOND_WAITING;
    return !is_nothing(&unused);
}

bool expected_is_loose(const second_learning *before, int64_t time)
{
    int64_t t = time - before->fell_at - before->t_init;
    return is_untidy(before) || before->fell_at > time || (before->stage == SECOND_REAR_FALLS && t <= before->last_t);
}
