/*
 * learnings.c - see learnings.h.
 */
#include "learnings.h"

#include "made.h"
#include "sessions.h"

#include <string.h>

enum { LATEST = 599, PRESSURE = 16000, POINTS = 256, NUMBERS = 8 };

/* The numbers that have a bound, and each bound, of so many points. */
static void numbers_of(second_learning *now, int64_t *numbers[NUMBERS])
{
    int64_t *const each[NUMBERS] = {&now->t_init, &now->last_t,  &now->pressure, &now->sums.n,
                                    &now->sums.t, &now->sums.tt, &now->sums.p,   &now->sums.tp};
    memcpy(numbers, each, sizeof each);
}

static int64_t bound_of(int number, int64_t points)
{
    const int64_t bounds[NUMBERS] = {LATEST,          LATEST,                   PRESSURE,          POINTS,
                                     LATEST * points, LATEST * LATEST * points, PRESSURE * points, LATEST * PRESSURE * points};
    return bounds[number];
}

static void put_learning(uint8_t *session, const second_learning *now)
{
    expected_put_learning(session, now);
    expected_seal(session);
}

static void try_one(change *kind, const trip *t, const second_learning *now)
{
    uint8_t session[SESSION_ROOM];
    memcpy(session, t->session, sizeof session);
    put_learning(session, now);
    count_change(kind, t, session);
}

static int64_t before(const trip *t, uint32_t seconds)
{
    return t->time > seconds ? t->time - seconds : 0;
}

/* ---- bounds */

static void try_stages(const trip *t)
{
    for (int stage = 0; stage < 16; stage++) {
        second_learning now = {.stage = (second_stage)stage};
        try_one(stage > SECOND_DONE ? &changed.learning_too_far : &changed.learning, t, &now);
    }
}

/* Every number at its bound, and one of them a step past it; of no points, of one, and of the most. */
static void try_bounds(const trip *t)
{
    static const int64_t counts[] = {0, 1, POINTS - 1, POINTS};
    int64_t *numbers[NUMBERS];
    second_learning now = {.stage = SECOND_REAR_FALLS, .fell_at = before(t, 60)};
    numbers_of(&now, numbers);
    for (size_t i = 0; i < sizeof counts / sizeof *counts; i++) {
        for (int number = 0; number < NUMBERS; number++)
            *numbers[number] = bound_of(number, counts[i]);
        now.sums.n = counts[i];
        try_one(&changed.learning, t, &now);
        for (int number = 0; number < NUMBERS; number++) {
            int64_t right = *numbers[number];
            *numbers[number] = bound_of(number, counts[i]) + 1;
            try_one(&changed.learning_too_far, t, &now);
            *numbers[number] = right;
        }
    }
}

/* Before any sample nothing is learnt: each number by itself not 0. */
static void try_too_soon(const trip *t)
{
    second_learning now = {.stage = SECOND_WAITING};
    int64_t *numbers[NUMBERS];
    numbers_of(&now, numbers);
    for (int number = 0; number < NUMBERS; number++) {
        *numbers[number] = 1;
        now.sums.n += number > 3; /* a point that may have such a sum */
        try_one(&changed.learning_too_soon, t, &now);
        now = (second_learning){.stage = SECOND_WAITING};
    }
    now.fell_at = 1;
    try_one(&changed.learning_too_soon, t, &now);
    for (int stage = SECOND_FRONT_FELL; stage <= SECOND_DONE; stage++)
        try_one(&changed.learning_too_soon, t, &(second_learning){.stage = (second_stage)stage});
}

/* ---- what no points come to */

/* Three points at one pressure, and a last one that is just above this sample's rear: the fall ends, and the line does not fall; of
 * sums that no points come to, it may rise, or have a denominator below 0. */
static void try_flat(const trip *t)
{
    trip low = *t;
    uint32_t front = (uint32_t)second_bits(t->session, EXPECTED_LAST_FRONT, 16);
    uint32_t rear = (uint32_t)second_bits(t->session, EXPECTED_EQUALIZATION, 16) / 2;
    trip_readings(&low, front, true, rear);
    second_learning now = {.stage = SECOND_REAR_FALLS, .fell_at = before(t, 60), .t_init = 10, .last_t = 2, .pressure = rear + 1,
                           .sums = {.n = 3, .t = 3, .tt = 5, .p = 3 * PRESSURE, .tp = 3 * PRESSURE}};
    try_one(&changed.learning, &low, &now);
    now.sums.tp++;
    try_one(&changed.learning, &low, &now);
    now.sums.tt = 1;
    try_one(&changed.learning, &low, &now);
}

void try_learnings(const trip *t)
{
    if (second_bits(t->session, EXPECTED_SAMPLED, 1) == 0) {
        try_too_soon(t);
        return;
    }
    try_stages(t);
    try_bounds(t);
    try_flat(t);
}

/* ---- random ones */

/* Falling points, as many as the pressure and 600 seconds allow. */
static void random_points(second_learning *now, uint32_t count)
{
    now->pressure = made_between(2000, PRESSURE);
    now->sums = (second_point_sums){.n = 1, .p = now->pressure};
    while (now->sums.n < count && now->pressure > 40 && now->last_t + now->t_init < LATEST - 3) {
        int64_t t = now->last_t += made_between(1, 3), p = now->pressure -= made_between(1, 40);
        now->sums = (second_point_sums){now->sums.n + 1, now->sums.t + t, now->sums.tt + t * t, now->sums.p + p,
                                        now->sums.tp + t * p};
    }
}

void random_learning(uint8_t *session, uint32_t time)
{
    second_learning now = {.stage = (second_stage)made_about(0, 4)};
    int64_t *numbers[NUMBERS];
    numbers_of(&now, numbers);
    if (now.stage == SECOND_FRONT_FELL || now.stage == SECOND_REAR_KNOWN || now.stage == SECOND_REAR_FALLS)
        now.fell_at = (time - made_below(620)) & 0xFFFFFF;
    if (now.stage == SECOND_REAR_KNOWN)
        now.pressure = made_about(0, PRESSURE);
    if (now.stage == SECOND_REAR_FALLS) {
        now.t_init = made_below(made_once_in(4) ? 600 : 20);
        random_points(&now, 1 + made_below(made_once_in(4) ? POINTS : 8));
        now.fell_at = (time - now.t_init - now.last_t - made_below(5)) & 0xFFFFFF;
    }
    int number = (int)made_below(NUMBERS);
    if (made_once_in(3))
        *numbers[number] = made_about(0, (uint32_t)bound_of(number, now.sums.n));
    if (second_bits(session, EXPECTED_SAMPLED, 1) == 1 || made_once_in(4))
        put_learning(session, &now);
}
