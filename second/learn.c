/*
 * learn.c - R-3 of 02: the application time, learnt from the rear pressure in a service
 * application.  "000" is the source document; its section 3.7 gives the names p0, t_INIT,
 * t_N and p_N.
 */

enum {
    SECOND_THREE_PSI = 300,
    SECOND_LEARNING_ENDS = 600,         /* seconds since the front fell */
    SECOND_POINTS_JUDGED = 4,           /* "starting after t4 and p4 are recorded" */
    SECOND_TIME_LEAST = 1000,           /* "the consist's range" */
    SECOND_TIME_MOST = 240000
};

/* ---------------------------------------------------------------- the line */

/* X1, X2, X4, Y1 and Y2 (000, 3.12) of so many points, from the first on. */
second_point_sums second_sums_of_points(const second_learner *learner, int64_t points)
{
    second_point_sums sums = {.n = points};
    for (int64_t i = 0; i < points; i++) {
        int64_t t = learner->t[i], p = learner->p[i];
        sums.t += t;
        sums.tt += t * t;
        sums.p += p;
        sums.tp += t * p;
    }
    return sums;
}

/* "Slopes as exact fractions": slope and intercept are these over Z. */
typedef struct {
    second_wide slope, intercept, z;
} second_line;

/* "Slope, m, and intercept, b, of the least squares regression line" (000, 3.12). */
second_line second_line_of(const second_point_sums *sums)
{
    second_wide n = sums->n, t = sums->t, tt = sums->tt;
    second_line line = {n * sums->tp - t * sums->p, tt * sums->p - t * sums->tp, n * tt - t * t};
    return line;
}

/* "The ratio between the current slope and the total slope": whether it is below 0.5, where
 * exactly 0.5 waits (decision 160).  Both slopes are below 0, so that the greater product is
 * that of the flatter one. */
int second_levels_off(const second_point_sums *all, int64_t p_change, int64_t t_change)
{
    second_line total = second_line_of(all);
    return 2 * p_change * total.z > t_change * total.slope;
}

/* "Slope_FINAL is 1.1 x Slope_TOT - 0.0933 if p_N is at least ARP_EQU, Slope_TOT if it is
 * less": over 100 Z, in hundredths of a psi a second, of which 0.0933 psi are 9.33. */
second_wide second_final_slope(const second_line *before, int64_t last_p, int64_t equalization)
{
    if (last_p >= equalization)
        return 110 * before->slope - 933 * before->z;
    return 100 * before->slope;
}

/* "Held inside the consist's range." */
int64_t second_inside_range(second_wide time)
{
    if (time < SECOND_TIME_LEAST)
        return SECOND_TIME_LEAST;
    return time > SECOND_TIME_MOST ? SECOND_TIME_MOST : (int64_t)time;
}

/* "T_APPLY = (ARP_EQU - I_(N-1)) / Slope_FINAL + t_INIT + 1", in ms, "rounded up".  Points that
 * fall have a slope below 0; sums with another have no result (decision 161). */
int64_t second_learnt_time(const second_point_sums *before, int64_t t_init, int64_t last_p,
                           int64_t equalization)
{
    second_line line = second_line_of(before);
    second_wide slope = second_final_slope(&line, last_p, equalization);
    if (slope >= 0)
        return 0;
    second_wide above = line.intercept - equalization * line.z;
    return second_inside_range(1000 * (t_init + 1) + second_up(100000 * above, -slope));
}

/* ------------------------------------------------------- stage after stage */

/* To a stage that has no use for what was recorded. */
void second_turn_to(second_learner *learner, second_stage stage)
{
    memset(learner, 0, sizeof *learner);
    learner->stage = stage;
}

/* "In a service application." */
int second_in_service(const second_brakes *brakes)
{
    return brakes->state == SECOND_APPLYING_SERVICE || brakes->state == SECOND_HOLDING_SERVICE;
}

/* "At least three psi less": no pressure is, where the other is below three psi itself
 * (decision 158). */
int second_three_psi_less(int64_t pressure, int64_t than)
{
    return pressure <= than - SECOND_THREE_PSI;
}

/* "The rear brake pipe pressure is recorded as p0." */
void second_record_p0(second_learner *learner, int64_t rear)
{
    learner->p0 = rear;
    learner->stage = SECOND_REAR_KNOWN;
}

/* "And a timer is started", be the rear present or not (decision 159). */
void second_front_falls(second_learner *learner, const second_sample *sample)
{
    learner->stage = SECOND_FRONT_FELL;
    learner->fell_at = sample->time;
    if (sample->rear_present)
        second_record_p0(learner, sample->rear);
}

/* "Recorded as p_N, the time on the timer as t_N." */
void second_record_point(second_learner *learner, int64_t t, int64_t p)
{
    learner->t[learner->points] = t;
    learner->p[learner->points] = p;
    learner->points += 1;
}

/* "The time on the timer is recorded as t_INIT, and the timer is reset to zero." */
void second_rear_falls(second_learner *learner, const second_sample *sample)
{
    learner->stage = SECOND_REAR_FALLS;
    learner->t_init = sample->time - learner->fell_at;
    second_record_point(learner, 0, sample->rear);
}

/* Whether the last point shows the end of the fall. */
int second_complete(const second_learner *learner)
{
    int64_t last = learner->points - 1;
    if (learner->points < SECOND_POINTS_JUDGED)
        return 0;
    second_point_sums all = second_sums_of_points(learner, learner->points);
    return second_levels_off(&all, learner->p[last] - learner->p[last - 1],
                             learner->t[last] - learner->t[last - 1]);
}

/* With -DSECOND_TYPED what is learnt is left out of account, and the typed time stays, for
 * comparison (decision 166). */
#ifndef SECOND_TYPED
enum { SECOND_LEARNS = 1 };
#else
enum { SECOND_LEARNS = 0 };
#endif

/* "The slope used is the total slope from the previous time step"; the result "replaces the
 * nominal value". */
void second_take_result(second_session *session)
{
    const second_learner *learner = &session->learner;
    int64_t last = learner->points - 1;
    second_point_sums before = second_sums_of_points(learner, last);
    int64_t time = second_learnt_time(&before, learner->t_init, learner->p[last],
                                      session->brakes.equalization);
    second_holds(time != 0);
    if (SECOND_LEARNS)
        session->train.application = time;
}

/* "At most 256 points are kept; a further one ends learning without a result." */
void second_rear_falls_further(second_session *session, const second_sample *sample)
{
    second_learner *learner = &session->learner;
    if (learner->points == SECOND_POINTS_MOST) {
        second_turn_to(learner, SECOND_DONE);
        return;
    }
    second_record_point(learner, sample->time - learner->fell_at - learner->t_init, sample->rear);
    if (second_complete(learner)) {
        second_take_result(session);
        second_turn_to(learner, SECOND_DONE);
    }
}

/* "The rear brake pipe pressure is compared" with p0, and then with p_(N-1). */
void second_learn_from_rear(second_session *session, const second_sample *sample)
{
    second_learner *learner = &session->learner;
    if (learner->stage == SECOND_FRONT_FELL) {
        second_record_p0(learner, sample->rear);
    } else if (learner->stage == SECOND_REAR_KNOWN) {
        if (second_three_psi_less(sample->rear, learner->p0))
            second_rear_falls(learner, sample);
    } else if (sample->rear < learner->p[learner->points - 1]) {
        second_rear_falls_further(session, sample);
    }
}

/* Once for each accepted sample, its brakes already updated and its predictions made: the
 * steps of decision 157 in their order.  "A lost rear reading counts for nothing here". */
void second_learn(second_session *session, const second_sample *sample)
{
    second_learner *learner = &session->learner;
    int fallen = second_three_psi_less(sample->front, session->train.set);

    if (!second_in_service(&session->brakes)) {
        second_turn_to(learner, SECOND_WAITING);
    } else if (learner->stage == SECOND_DONE) {
        if (!fallen)
            second_turn_to(learner, SECOND_WAITING);
    } else if (learner->stage == SECOND_WAITING) {
        if (fallen)
            second_front_falls(learner, sample);
    } else if (sample->time - learner->fell_at >= SECOND_LEARNING_ENDS) {
        second_turn_to(learner, SECOND_DONE);
    } else if (sample->rear_present) {
        second_learn_from_rear(session, sample);
    }
}

/* ------------------------------------------------------------- what is told */

second_learning second_learning_of(const second_learner *learner)
{
    second_learning told = {.stage = learner->stage, .fell_at = learner->fell_at,
                            .t_init = learner->t_init, .pressure = learner->p0,
                            .sums = second_sums_of_points(learner, learner->points)};
    if (learner->points > 0) {
        told.last_t = learner->t[learner->points - 1];
        told.pressure = learner->p[learner->points - 1];
    }
    return told;
}
