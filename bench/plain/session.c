/*
 * session.c - opening a session, and judging a sample.
 */

int plain_open(plain_session *session, const uint8_t *consist, size_t count)
{
    plain_consist train;
    int refusal = read_consist(consist, count, &train);
    if (refusal != 0)
        return refusal;
    *session = (plain_session){ .open = true, .train = train,
                                .brakes = { .hold = train.set, .a = train.set, .last_heard = NEVER } };
    return 0;
}

static bool time_right(const plain_session *session, const sample_read *sample)
{
    int64_t elapsed = sample->time - session->brakes.last_time;
    return !session->begun || (elapsed >= 1 && elapsed <= 5);
}

static bool covered(const plain_session *session, const sample_read *sample,
                    const profile_read *profile)
{
    int64_t rear = sample->head - session->train.length;
    return rear >= 0 && profile->start[0] <= rear
        && profile->start[profile->records - 1] >= sample->head + REACH;
}

/* The stop; the cause stays once there is one. */
static int64_t judge_penalty(plain_session *session, const sample_read *sample,
                             const profile_read *profile, const targets_read *targets)
{
    prediction found;
    brake_curve by = service_curve(&session->train, &session->brakes);
    predict(&session->train, &by, sample, profile, targets, &found);
    if (session->cause == 0)
        session->cause = called(session, sample, targets, &found);
    return found.stop;
}

/* The same by emergency air, for which no speed but 0 counts. */
static int64_t judge_emergency(plain_session *session, const sample_read *sample,
                               const profile_read *profile, const targets_read *targets)
{
    static const targets_read none;
    prediction found;
    brake_curve by = emergency_curve(&session->train, &session->brakes);
    predict(&session->train, &by, sample, profile, &none, &found);
    if (session->emergency == 0)
        session->emergency = emergency_called(sample, targets, found.stop);
    return found.stop;
}

int plain_sample(plain_session *session, const uint8_t *sample_bytes, size_t sample_count,
                 const uint8_t *profile_bytes, size_t profile_count,
                 const uint8_t *target_bytes, size_t target_count,
                 uint8_t *decision, size_t decision_count)
{
    profile_read profile;
    targets_read targets;
    sample_read sample;

    if (!session->open)
        return 1;
    if (sample_count != SAMPLE_BYTES)
        return 2;
    if (!well_formed(sample_bytes))
        return 3;
    if (read_profile(profile_bytes, profile_count, &profile) != 0)
        return 6;
    if (read_targets(target_bytes, target_count, &targets) != 0)
        return 7;
    if (read_sample(sample_bytes, &sample) != 0)
        return 8;
    if (!time_right(session, &sample))
        return 9;
    if (!covered(session, &sample, &profile))
        return 10;

    plain_session after = *session;
    update_brakes(&after.brakes, &after.train, &sample, session->begun);
    after.begun = true;
    int64_t stop = judge_penalty(&after, &sample, &profile, &targets);
    int64_t emergency_stop = after.cause == 0 ? 0 : judge_emergency(&after, &sample, &profile, &targets);
    if (decision_count < BOTH_BYTES)
        return 12;
    int state = after.brakes.state;
    write_decision(decision, 0x44, sample.time, state, after.cause, stop);
    write_decision(decision + DECISION_BYTES, 0x45, sample.time, state, after.emergency, emergency_stop);
    learn(&after.learner, &after.train, &after.brakes, &sample);
    *session = after;
    return 0;
}
