/*
 * walk.c - the section "The walk": the walk itself, and the judgement of targets.
 */

enum {
    SECOND_STEP_FEET = 16,
    SECOND_STEPS = 2048,
    SECOND_REACH = SECOND_STEP_FEET * SECOND_STEPS    /* 32,768 ft */
};

/* "Inside 01's limits the greatest gain a step, over 2,048 steps, from 100 mph,
 * stays under the bound" (02, R-10).  The greatest gain is that of 30,000 tons
 * on one car and 2 axles, on -5 %, straight, unbraked, with s = q = 1; the bound
 * is the 1,000,000,000 that 01 names at 11. */
enum {
    SECOND_STEP_GAIN = 238064,
    SECOND_SQUARE_MOST = 10000 * 10000 + SECOND_STEPS * SECOND_STEP_GAIN   /* 587,555,072 */
};

/* ---------------------------------------------------------------- the walk */

/* "Drop = 2 x set x t / (7 x application time), down, not more than A minus
 * (5A + 2B)/7 (the quotient down), not below 0.  Cylinder p = B + 5/2 drop,
 * down." */
int64_t second_cylinder(const second_consist *train, int64_t a, int64_t b, int64_t t)
{
    int64_t drop = (int64_t)second_down((second_wide)2 * train->set * t, 7 * train->application);
    drop = second_least(drop, a - second_service_equalization(a, b));
    drop = second_greatest(drop, 0);
    return b + 5 * drop / 2;
}

/* "Drop is (A minus equalization) x t / 10,000, down, not past equalization and not
 * below 0; p is B plus 6 drop" (02, R-5). */
int64_t second_emergency_cylinder(const second_air *air, int64_t t)
{
    int64_t above = air->a - air->equalization;
    int64_t drop = (int64_t)second_down((second_wide)above * t, 10000);
    drop = second_least(drop, above);
    drop = second_greatest(drop, 0);
    return air->b + 6 * drop;
}

/* "Cylinder p" of the curve that the air follows. */
int64_t second_air_cylinder(const second_consist *train, const second_air *air, int64_t t)
{
    if (air->emergency)
        return second_emergency_cylinder(air, t);
    return second_cylinder(train, air->a, air->b, t);
}

/* "Brake force F = rated x p / 6,400, down." */
int64_t second_brake_force(const second_consist *train, int64_t cylinder)
{
    return (int64_t)second_down((second_wide)train->rated * cylinder, 6400);
}

/* "Opposing force in millionths of a lb: 1,000,000 F + 600,000 W +
 * 20,000,000 n + 100 W s + 7 N q + 200,000 W G + 8,000 W C", with "2,000 W G in
 * place of 200,000 W G" (02, R-11). */
second_wide second_opposing(const second_consist *train, int64_t force, int64_t s, int64_t q,
                            int64_t grade, int64_t curve)
{
    second_wide weight = train->weight;
    return (second_wide)1000000 * force
         + 600000 * weight
         + (second_wide)20000000 * train->axles
         + 100 * weight * s
         + (second_wide)7 * train->cars * q
         + SECOND_GRADE_FORCE * weight * grade
         + 8000 * weight * curve;
}

/* "q loses 1,449 x that / (605,000 W), down, rounded here only.  It may
 * gain." */
int64_t second_loss(const second_consist *train, second_wide opposing)
{
    return (int64_t)second_down(1449 * opposing, (second_wide)605000 * train->weight);
}

/* "t gains 12,000,000 / (11 s) ms, down." */
int64_t second_step_time(int64_t s)
{
    return 12000000 / (11 * s);
}

/* A walk from its first head to its last, and q at each of them. */
typedef struct {
    int64_t steps;         /* made, the last head's place */
    int64_t head[SECOND_STEPS + 1], q[SECOND_STEPS + 1];
} second_walked;

/* "It starts after the update, with A, B and clock t = 0, squared speed q = speed
 * squared.  Steps of 16 ft, at most 2,048, made while q is above 0.  In each step,
 * from the values at its start." */
void second_make_walk(second_walked *walked, const second_consist *train,
                      const second_air *air, const second_sample *sample,
                      const second_profile *profile)
{
    int64_t start = sample->speed * sample->speed;
    int64_t q = start;
    int64_t head = sample->head;
    int64_t t = 0;
    int64_t step = 0;

    walked->head[0] = head;
    walked->q[0] = q;
    while (step < SECOND_STEPS && q > 0) {
        int64_t s = second_root(q);
        second_ground under = second_averages(profile, head, train);
        int64_t force = second_brake_force(train, second_air_cylinder(train, air, t));
        second_wide opposing = second_opposing(train, force, s, q, under.grade, under.curve);

        q -= second_loss(train, opposing);
        t += second_step_time(s);
        head += SECOND_STEP_FEET;
        step += 1;
        second_holds(q <= start + SECOND_STEP_GAIN * step);
        second_holds(q <= SECOND_SQUARE_MOST);
        walked->head[step] = head;
        walked->q[step] = q;
    }
    walked->steps = step;
}

/* "The stopping location is the head when q first is 0 or less."  Without one there
 * is none. */
int64_t second_stop(const second_walked *walked)
{
    for (int64_t i = 0; i <= walked->steps; i++)
        if (walked->q[i] <= 0)
            return walked->head[i];
    return SECOND_NO_STOP;
}

#ifndef SECOND_FIRST_CROSSING

/* "A walk cut at its step limit with q above 0" (02, R-2).  A q of 0 at the last
 * step is no cut (decision 117). */
int second_cut(const second_walked *walked)
{
    return walked->q[walked->steps] > 0;
}

/* "The location becomes the first head from which, to the end of the walk, the
 * speed stays at or below the target's.  A walk cut at its step limit with q above
 * 0 has no location" (02, R-2).  The search goes back from the walk's end, for only
 * what comes after a head tells whether the speed stays.  "A train already below the
 * target speed is treated alike": the walk's first head is one as the others. */
int64_t second_location(const second_walked *walked, int64_t limit)
{
    if (second_cut(walked))
        return SECOND_NO_STOP;
    int64_t first = walked->steps;      /* q is 0 or less there, above no limit */
    while (first > 0 && walked->q[first - 1] <= limit * limit)
        first -= 1;
    return walked->head[first];
}

#else

/* "The location for a target speed is the head when q first is at or below that
 * speed squared.  Without one in 2,048 steps there is none": document 01 alone. */
int64_t second_location(const second_walked *walked, int64_t limit)
{
    for (int64_t i = 0; i <= walked->steps; i++)
        if (walked->q[i] <= limit * limit)
            return walked->head[i];
    return SECOND_NO_STOP;
}

#endif

/* One walk for one limit, the stop's being 0: "for a stop nothing changes" (02,
 * The answer is the location, SECOND_NO_STOP without one. */
int64_t second_walk(const second_consist *train, const second_air *air,
                    const second_sample *sample, const second_profile *profile, int64_t limit)
{
    second_walked walked;
    second_make_walk(&walked, train, air, sample, profile);
    int64_t location = second_location(&walked, limit);
    second_holds(limit != 0 || location == second_stop(&walked));
    return location;
}

/* "It starts after the update, with A, B": the air as it is held, in every state
 * (decision 27). */
second_air second_held_air(const second_session *session)
{
    second_air air = {.a = session->brakes.a, .b = session->brakes.b};
    return air;
}

/* --------------------------------------------------------------- judgement */

/* "A target is judged if it lies from head to head plus 32,768, both
 * included." */
int second_judged(const second_sample *sample, int64_t target)
{
    return target >= sample->head && target <= sample->head + SECOND_REACH;
}

/* "Its offset is offset x (v^2 - u^2) / v^2 rounded up, with v the train's and
 * u the target's speed; 0 where v is not above u." */
int64_t second_target_offset(int64_t offset, int64_t v, int64_t u)
{
    if (v <= u)
        return 0;
    return (int64_t)second_up((second_wide)offset * (v * v - u * u), v * v);
}

/* "The penalty is called when location plus offset is greater than the target.
 * Without [a location] there is none, and it counts as beyond every target."
 * Whether this one calls; "a train already below the target speed is treated alike"
 * (02, R-2), so that no target is passed over for the speed it allows. */
int second_calls(const second_session *session, const second_sample *sample,
                 const second_profile *profile, int64_t target, int64_t speed)
{
    if (!second_judged(sample, target))
        return 0;
    second_air air = second_held_air(session);
    int64_t location = second_walk(&session->train, &air, sample, profile, speed);
    int64_t offset = second_target_offset(session->train.offset, sample->speed, speed);
    return location == SECOND_NO_STOP || location + offset > target;
}

/* The stopping location, and "the cause is the first such target".  A walk of
 * its own for the stop and for each target. */
second_prediction second_predict(const second_session *session, const second_sample *sample,
                                 const second_profile *profile, const second_targets *targets)
{
    second_air air = second_held_air(session);
    second_prediction found = {second_walk(&session->train, &air, sample, profile, 0), 0};
    for (int64_t i = 0; found.cause == 0 && i < targets->records; i++)
        if (second_calls(session, sample, profile, targets->location[i], targets->speed[i]))
            found.cause = i + 1;
    return found;
}
