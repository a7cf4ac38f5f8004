/*
 * session.c - opening a session, and judging a sample.
 */

/* "Opening gives state 0, hold = A = set, B = 0, fall 0, equalization 0", and the choice
 * with the rear never yet heard (02, R-7), and nothing learnt (02, R-3).  "Opening uses 2, 4
 * and 5", and 13 for the blocks (02, R-1); "if refused, an earlier session stays as it was." */
int second_open_with(second_session *session, const unsigned char *bytes, size_t count,
                     second_choice choice)
{
    second_consist train;
    int refusal = second_read_consist(bytes, count, &train);
    if (refusal != 0)
        return refusal;
    memset(session, 0, sizeof *session);
    session->open = 1;
    session->train = train;
    session->brakes.state = SECOND_CHARGED;
    session->brakes.hold = train.set;
    session->brakes.a = train.set;
    session->brakes.choice = choice;
    return 0;
}

/* "The new default" (02, R-7). */
int second_open(second_session *session, const unsigned char *bytes, size_t count)
{
    return second_open_with(session, bytes, count, SECOND_FIVE_SECONDS);
}

/* "9: time not 1 to 5 seconds after the last accepted sample."  "The session's
 * first sample may have any time and is never refused 9." */
int second_time_right(const second_session *session, const second_sample *sample)
{
    if (!session->begun)
        return 1;
    int64_t elapsed = sample->time - session->brakes.last_time;
    return elapsed >= 1 && elapsed <= 5;
}

/* "10: head less than train length, or profile not covering head minus length
 * to head plus 32,768." */
int second_covered(const second_session *session, const second_sample *sample,
                   const second_profile *profile)
{
    int64_t length = session->train.length;
    return sample->head >= length
        && profile->start[0] <= sample->head - length
        && profile->start[profile->records - 1] >= sample->head + SECOND_REACH;
}

/* "The cause is the first such target and, like the penalty, stays"; emergency
 * "stays called" (02, R-5): the cause that stands after one more prediction. */
int64_t second_standing(int64_t stood, int64_t called)
{
    return stood != 0 ? stood : called;
}

/* "Decision": a sample's record, of the penalty or of emergency, by the cause that
 * stands and this sample's own stop.  "The penalty bit is 1 exactly when the cause is
 * not 0"; the second record has "its penalty bit and cause now meaning emergency, its
 * location the emergency stop" (02, R-5), and time and state as the first. */
second_decision second_decide(int emergency, const second_session *session,
                              const second_sample *sample, int64_t cause, int64_t stop)
{
    second_decision decision = {.emergency = emergency, .time = sample->time,
                                .state = session->brakes.state, .penalty = cause != 0,
                                .cause = cause, .stop = stop};
    return decision;
}

/* "A second decision record follows the first" (02, R-5). */
void second_write_both(unsigned char *output, const second_decision *penalty,
                       const second_decision *emergency)
{
    second_write_decision(output, penalty);
    second_write_decision(output + SECOND_DECISION_BYTES, emergency);
}

/* "Where several apply, the lowest number is returned."  "A sample call is lent
 * profile and targets and judges them each time; targets may change between
 * calls."  "12 now means under 16 bytes for a sample call" (02, R-5).  The tests
 * stand in the order of their numbers; a refused sample changes nothing
 * (decisions 34 and 36). */
int second_judge(second_session *session,
                 const unsigned char *sample_bytes, size_t sample_count,
                 const unsigned char *profile_bytes, size_t profile_count,
                 const unsigned char *target_bytes, size_t target_count,
                 unsigned char *output, size_t output_count)
{
    second_profile profile;
    second_targets targets;
    second_sample sample;

    if (!session->open)
        return 1;
    if (sample_count != SECOND_SAMPLE_BYTES)
        return 2;
    if (!second_sample_well_formed(sample_bytes))
        return 3;
    if (second_read_profile(profile_bytes, profile_count, &profile) != 0)
        return 6;
    if (second_read_targets(target_bytes, target_count, &targets) != 0)
        return 7;
    if (!second_readings_in_range(sample_bytes))
        return 8;
    second_read_sample(sample_bytes, &sample);
    if (!second_time_right(session, &sample))
        return 9;
    if (!second_covered(session, &sample, &profile))
        return 10;

    second_session after = *session;
    second_update_brakes(&after.brakes, &after.train, &sample, !session->begun);
    after.begun = 1;
    second_prediction penalty = second_predict(&after, &sample, &profile, &targets);
    after.cause = second_standing(after.cause, penalty.cause);

    /* "From the sample that calls the penalty on"; "before the penalty the second record
     * has bit, cause and location zero" (02, R-5), in states 3 and 4 too. */
    second_prediction emergency = {0, 0};
    if (after.cause != 0)
        emergency = second_predict_emergency(&after, &sample, &profile, &targets);
    after.emergency = second_standing(after.emergency, emergency.cause);

    if (output_count < SECOND_BOTH_BYTES)
        return 12;
    second_decision first = second_decide(0, &after, &sample, after.cause, penalty.stop);
    second_decision second = second_decide(1, &after, &sample, after.emergency, emergency.stop);
    second_write_both(output, &first, &second);

    /* "The learnt time serves from the next sample" (02, R-3). */
    second_learn(&after, &sample);
    *session = after;
    return 0;
}
