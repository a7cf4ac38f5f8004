/*
 * emergency.c - R-5 of 02: the stop by emergency air, and the call of emergency.
 */

/* "Unless the state is 3 or 4." */
int second_in_emergency(const second_brakes *brakes)
{
    return brakes->state == SECOND_APPLYING_EMERGENCY
        || brakes->state == SECOND_HOLDING_EMERGENCY;
}

/* "Combine A and find equalization by the emergency rule, unless the state is 3 or 4,
 * where A and the held equalization are used as they are."  The emergency rule is 01's:
 * equalization from A as it was, "then" A (decision 105).  The brakes are already
 * updated, so that last front and last rear are this sample's own, a lost rear as it was
 * counted, and make the update's nominal (decision 104).  What is held is only read: the
 * prediction applies nothing. */
second_air second_emergency_air(const second_session *session)
{
    const second_brakes *held = &session->brakes;
    second_air air = {.a = held->a, .b = held->b, .equalization = held->equalization,
                      .emergency = 1};
    if (!second_in_emergency(held)) {
        int64_t nominal = second_nominal(session->train.set, held->last_front, held->last_rear);
        air.equalization = second_emergency_equalization(held->a, held->b, nominal);
        air.a = second_combined(held->a, nominal);
    }
    return air;
}

/* "Emergency is called if the stop is at or past a judged target of speed 0, with no
 * offset."  Without a stop "it counts as beyond every target" (01).  Whether this one
 * calls. */
int second_calls_emergency(const second_sample *sample, int64_t stop, int64_t target,
                           int64_t speed)
{
    if (speed != 0 || !second_judged(sample, target))
        return 0;
    return stop == SECOND_NO_STOP || stop >= target;
}

/* "Predict a stop by emergency air too", and the call that the curve itself makes: the
 * cause is the first such target of this list (decision 108), whatever already stands.
 * One walk is enough, for every target that counts is one for the stop. */
second_prediction second_predict_emergency(const second_session *session,
                                           const second_sample *sample,
                                           const second_profile *profile,
                                           const second_targets *targets)
{
    second_air air = second_emergency_air(session);
    second_prediction found = {second_walk(&session->train, &air, sample, profile, 0), 0};
    for (int64_t i = 0; found.cause == 0 && i < targets->records; i++)
        if (second_calls_emergency(sample, found.stop, targets->location[i], targets->speed[i]))
            found.cause = i + 1;
    return found;
}
