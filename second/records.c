/*
 * records.c - the section "Records": each record's layout and the rules for it.
 */

enum {
    SECOND_LAST_FOOT = 4000000,      /* the highest start and target location */
    SECOND_SAMPLE_MARK = 0x53,
    SECOND_DECISION_MARK = 0x44,
    SECOND_EMERGENCY_MARK = 0x45
};

/* "1 to 64 blocks, each with length and weight of at least 1, head end first, summing to
 * the consist's length and weight.  Each block is two bit fields, length 15 and weight 15,
 * with two spare zero bits" (02, R-1): 13 when a rule is broken, "their byte count
 * included".  No byte is no block, which is right (decision 135). */
int second_read_blocks(const unsigned char *bytes, size_t count, second_consist *train)
{
    second_blocks *blocks = &train->blocks;
    int64_t length = 0;
    int64_t weight = 0;
    memset(blocks, 0, sizeof *blocks);
    if (count == 0)
        return 0;
    if (count % SECOND_BLOCK_BYTES != 0 || count / SECOND_BLOCK_BYTES > SECOND_BLOCKS_MOST)
        return 13;
    blocks->records = (int64_t)(count / SECOND_BLOCK_BYTES);
    for (int64_t i = 0; i < blocks->records; i++) {
        const unsigned char *record = bytes + i * SECOND_BLOCK_BYTES;
        blocks->length[i] = second_bits(record, 0, 15);
        blocks->weight[i] = second_bits(record, 15, 15);
        if (second_bits(record, 30, 2) != 0)
            return 13;
        if (blocks->length[i] < 1 || blocks->weight[i] < 1)
            return 13;
        length += blocks->length[i];
        weight += blocks->weight[i];
    }
    if (length != train->length || weight != train->weight)
        return 13;
    return 0;
}

/* "Consist, 16 bytes", and what follows it: 2, 4, 5 or 13 when it is refused.  "2 now
 * means a consist under 16 bytes; 13 [is] checked after 5" (02, R-1). */
int second_read_consist(const unsigned char *bytes, size_t count, second_consist *train)
{
    if (count < SECOND_CONSIST_BYTES)
        return 2;
    train->cars = second_bits(bytes, 0, 9);
    train->axles = second_bits(bytes, 9, 11);
    train->weight = second_bits(bytes, 20, 15);
    train->length = second_bits(bytes, 35, 15);
    train->rated = second_bits(bytes, 50, 24);
    train->application = second_bits(bytes, 74, 18);
    train->recharge = second_bits(bytes, 92, 10);
    train->set = second_bits(bytes, 102, 14);
    train->offset = second_bits(bytes, 116, 12);
    if (train->cars < 1 || train->cars > 250
        || train->axles < 2 || train->axles > 2000
        || train->weight < 10 || train->weight > 30000
        || train->length < 50 || train->length > 20000
        || train->rated > 10000000
        || train->application < 1000 || train->application > 240000
        || train->recharge < 1 || train->recharge > 1000
        || train->set < 7000 || train->set > 11000
        || train->offset > 4000)
        return 4;
    if (train->weight < 10 * train->cars)
        return 5;
    return second_read_blocks(bytes + SECOND_CONSIST_BYTES, count - SECOND_CONSIST_BYTES, train);
}

/* "Profile, 6 bytes a record, 2 to 257 records ...": 6 when a rule is broken. */
int second_read_profile(const unsigned char *bytes, size_t count, second_profile *profile)
{
    if (count % SECOND_PROFILE_BYTES != 0
        || count / SECOND_PROFILE_BYTES < SECOND_PROFILE_LEAST
        || count / SECOND_PROFILE_BYTES > SECOND_PROFILE_MOST)
        return 6;
    profile->records = (int64_t)(count / SECOND_PROFILE_BYTES);
    for (int64_t i = 0; i < profile->records; i++) {
        const unsigned char *record = bytes + i * SECOND_PROFILE_BYTES;
        profile->start[i] = second_bits(record, 0, 24);
        profile->grade[i] = second_signed_bits(record, 24, 11);
        profile->curve[i] = second_bits(record, 35, 11);
        if (second_bits(record, 46, 2) != 0)
            return 6;
        if (profile->start[i] > SECOND_LAST_FOOT)
            return 6;
        if (profile->grade[i] < -500 || profile->grade[i] > 500)
            return 6;
        if (profile->curve[i] > 2000)
            return 6;
        if (i > 0 && profile->start[i] <= profile->start[i - 1])
            return 6;
    }
    /* "The last only ends the profile; its grade and curvature are zero." */
    if (profile->grade[profile->records - 1] != 0 || profile->curve[profile->records - 1] != 0)
        return 6;
    return 0;
}

/* "Targets, 5 bytes a record, 0 to 8 records ...": 7 when a rule is broken. */
int second_read_targets(const unsigned char *bytes, size_t count, second_targets *targets)
{
    if (count % SECOND_TARGET_BYTES != 0 || count / SECOND_TARGET_BYTES > SECOND_TARGETS_MOST)
        return 7;
    targets->records = (int64_t)(count / SECOND_TARGET_BYTES);
    for (int64_t i = 0; i < targets->records; i++) {
        const unsigned char *record = bytes + i * SECOND_TARGET_BYTES;
        targets->location[i] = second_bits(record, 0, 24);
        targets->speed[i] = second_bits(record, 24, 16);
        if (targets->location[i] > SECOND_LAST_FOOT || targets->speed[i] > 10000)
            return 7;
        if (i > 0 && targets->location[i] <= targets->location[i - 1])
            return 7;
    }
    return 0;
}

/* "3: a wrong mark; a spare bit set, or rear lost with rear bits not zero." */
int second_sample_well_formed(const unsigned char *bytes)
{
    if (second_bits(bytes, 0, 8) != SECOND_SAMPLE_MARK)
        return 0;
    if (second_bits(bytes, 33, 7) != 0)
        return 0;
    if (second_bits(bytes, 32, 1) == 0 && second_bits(bytes, 128, 32) != 0)
        return 0;
    return 1;
}

/* "8: a present reading is NaN, infinite, below zero, speed above 100 or
 * pressure above 160."  A lost rear is not judged (decision 8). */
int second_readings_in_range(const unsigned char *bytes)
{
    if (!second_reading_in_range(second_bits(bytes, 64, 32), 0x42C80000))
        return 0;
    if (!second_reading_in_range(second_bits(bytes, 96, 32), 0x43200000))
        return 0;
    if (second_bits(bytes, 32, 1) == 1
        && !second_reading_in_range(second_bits(bytes, 128, 32), 0x43200000))
        return 0;
    return 1;
}

/* "Sample, 20 bytes", already judged, into numbers. */
void second_read_sample(const unsigned char *bytes, second_sample *sample)
{
    sample->time = second_bits(bytes, 8, 24);
    sample->rear_present = second_bits(bytes, 32, 1) == 1;
    sample->head = second_bits(bytes, 40, 24);
    sample->speed = second_hundredths_up(second_bits(bytes, 64, 32));
    sample->front = second_hundredths_down(second_bits(bytes, 96, 32));
    sample->rear = sample->rear_present ? second_hundredths_down(second_bits(bytes, 128, 32)) : 0;
}

/* "Decision, 8 bytes": 2, 3 or 4 when it is refused.  "3 takes 0x45 as right in
 * a decision" (02, R-5). */
int second_read_decision(const unsigned char *bytes, size_t count, second_decision *decision)
{
    if (count != SECOND_DECISION_BYTES)
        return 2;
    int64_t mark = second_bits(bytes, 0, 8);
    if (mark != SECOND_DECISION_MARK && mark != SECOND_EMERGENCY_MARK)
        return 3;
    decision->emergency = mark == SECOND_EMERGENCY_MARK;
    decision->time = second_bits(bytes, 8, 24);
    decision->state = second_bits(bytes, 32, 3);
    decision->penalty = second_bits(bytes, 35, 1);
    decision->cause = second_bits(bytes, 36, 4);
    decision->stop = second_bits(bytes, 40, 24);
    if (decision->state > 5 || decision->cause > SECOND_TARGETS_MOST)
        return 4;
    /* "The penalty bit is 1 exactly when the cause is not 0." */
    if (decision->penalty != (decision->cause != 0))
        return 4;
    if (decision->stop > SECOND_LAST_FOOT && decision->stop != SECOND_NO_STOP)
        return 4;
    return 0;
}

/* "Decision, 8 bytes." */
void second_write_decision(unsigned char *output, const second_decision *decision)
{
    second_put_bits(output, 0, 8,
                    decision->emergency ? SECOND_EMERGENCY_MARK : SECOND_DECISION_MARK);
    second_put_bits(output, 8, 24, decision->time);
    second_put_bits(output, 32, 3, decision->state);
    second_put_bits(output, 35, 1, decision->penalty);
    second_put_bits(output, 36, 4, decision->cause);
    second_put_bits(output, 40, 24, decision->stop);
}
