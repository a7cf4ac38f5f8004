/*
 * records.c - consist, profile, targets and sample read, a decision written.
 */

/* The next field of a record of 64 bits, taken from the top. */
static int64_t field(uint64_t *left, int width)
{
    int64_t value = (int64_t)(*left >> (64 - width));
    *left <<= width;
    return value;
}

/* 0, or 13. */
static int read_blocks(const uint8_t *bytes, size_t count, plain_consist *train)
{
    int64_t length = 0, weight = 0;
    if (count % BLOCK_BYTES != 0 || count > PLAIN_BLOCKS * BLOCK_BYTES)
        return 13;
    train->blocks = (int)(count / BLOCK_BYTES);
    for (int i = 0; i < train->blocks; i++) {
        uint64_t block = word(bytes + i * BLOCK_BYTES, BLOCK_BYTES);
        train->block_length[i] = (uint16_t)(block >> 17);
        train->block_weight[i] = (uint16_t)(block >> 2 & 0x7FFF);
        if ((block & 3) != 0 || train->block_length[i] == 0 || train->block_weight[i] == 0)
            return 13;
        length += train->block_length[i];
        weight += train->block_weight[i];
    }
    return count > 0 && (length != train->length || weight != train->weight) ? 13 : 0;
}

static int read_consist(const uint8_t *bytes, size_t count, plain_consist *train)
{
    if (count < CONSIST_BYTES)
        return 2;
    /* 9, 11, 15, 15 and 14 of rated's 24 bits; then its other 10 and the rest */
    uint64_t high = word(bytes, 8), low = word(bytes + 8, 8);
    train->cars = field(&high, 9);
    train->axles = field(&high, 11);
    train->weight = field(&high, 15);
    train->length = field(&high, 15);
    int64_t rated_high = field(&high, 14);
    train->rated = rated_high << 10 | field(&low, 10);
    train->application = field(&low, 18);
    train->recharge = field(&low, 10);
    train->set = field(&low, 14);
    train->offset = field(&low, 12);
    if (train->cars < 1 || train->cars > 250
        || train->axles < 2 || train->axles > 2000
        || train->weight < 10 || train->weight > 30000
        || train->length < 50 || train->length > 20000
        || train->rated > 10000000
        || train->application < 1000 || train->application > 240000
        || train->recharge < 1 || train->recharge > 1000
        || train->set < 7000 || train->set > 11000
        || train->offset > 4000)
        return 4;
    if (train->weight < 10 * train->cars)
        return 5;
    return read_blocks(bytes + CONSIST_BYTES, count - CONSIST_BYTES, train);
}

/* The totals of grade and curvature x feet up to record i's start. */
static void add_totals(profile_read *profile, int i)
{
    int64_t feet = i > 0 ? profile->start[i] - profile->start[i - 1] : 0;
    profile->grade_total[i] = i > 0 ? profile->grade_total[i - 1] + profile->grade[i - 1] * feet : 0;
    profile->curve_total[i] = i > 0 ? profile->curve_total[i - 1] + profile->curve[i - 1] * feet : 0;
}

static int read_profile(const uint8_t *bytes, size_t count, profile_read *profile)
{
    if (count % PROFILE_BYTES != 0 || count < 2 * PROFILE_BYTES || count > RECORDS * PROFILE_BYTES)
        return 6;
    int records = (int)(count / PROFILE_BYTES);
    profile->records = records;
    for (int i = 0; i < records; i++) {
        uint64_t record = word(bytes + i * PROFILE_BYTES, PROFILE_BYTES);
        uint32_t start = (uint32_t)(record >> 24);
        int grade = (int)(record >> 13 & 0x7FF);
        int curve = (int)(record >> 2 & 0x7FF);
        if (grade >= 1024)
            grade -= 2048;
        if ((record & 3) != 0 || start > LAST_FOOT || grade < -500 || grade > 500 || curve > 2000)
            return 6;
        if (i > 0 && start <= profile->start[i - 1])
            return 6;
        profile->start[i] = start;
        profile->grade[i] = (int16_t)grade;
        profile->curve[i] = (uint16_t)curve;
        add_totals(profile, i);
    }
    return profile->grade[records - 1] != 0 || profile->curve[records - 1] != 0 ? 6 : 0;
}

static int read_targets(const uint8_t *bytes, size_t count, targets_read *targets)
{
    if (count % TARGET_BYTES != 0 || count > TARGETS * TARGET_BYTES)
        return 7;
    targets->records = (int)(count / TARGET_BYTES);
    for (int i = 0; i < targets->records; i++) {
        targets->location[i] = (uint32_t)word(bytes + i * TARGET_BYTES, 3);
        targets->speed[i] = (uint16_t)word(bytes + i * TARGET_BYTES + 3, 2);
        if (targets->location[i] > LAST_FOOT || targets->speed[i] > 10000)
            return 7;
        if (i > 0 && targets->location[i] <= targets->location[i - 1])
            return 7;
    }
    return 0;
}

static float reading(const uint8_t *bytes)
{
    uint32_t bits = (uint32_t)word(bytes, 4);
    float value;
    memcpy(&value, &bits, sizeof value);
    return value;
}

/* Not for a NaN either. */
static bool in_range(float value, float limit)
{
    return value >= 0 && value <= limit;
}

/* A hundredfold of 24 bits is exact in a double. */
static int64_t hundredths_down(float value)
{
    return (int64_t)(100.0 * (double)value);
}

static int64_t hundredths_up(float value)
{
    double exact = 100.0 * (double)value;
    int64_t whole = (int64_t)exact;
    return (double)whole < exact ? whole + 1 : whole;
}

static bool well_formed(const uint8_t *bytes)
{
    bool present = bytes[4] >> 7;
    return bytes[0] == 0x53 && (bytes[4] & 0x7F) == 0 && (present || word(bytes + 16, 4) == 0);
}

/* 0, or 8. */
static int read_sample(const uint8_t *bytes, sample_read *sample)
{
    float speed = reading(bytes + 8), front = reading(bytes + 12), rear = reading(bytes + 16);
    sample->rear_present = bytes[4] >> 7;
    if (!in_range(speed, 100) || !in_range(front, 160)
        || (sample->rear_present && !in_range(rear, 160)))
        return 8;
    sample->time = (int64_t)word(bytes + 1, 3);
    sample->head = (int64_t)word(bytes + 5, 3);
    sample->speed = hundredths_up(speed);
    sample->front = hundredths_down(front);
    sample->rear = sample->rear_present ? hundredths_down(rear) : 0;
    return 0;
}

static void write_decision(uint8_t *bytes, int mark, int64_t time, int state, int cause, int64_t stop)
{
    uint64_t record = (uint64_t)mark << 56 | (uint64_t)time << 32 | (uint64_t)state << 29
        | (uint64_t)(cause != 0) << 28 | (uint64_t)cause << 24 | (uint64_t)stop;
    for (int i = 0; i < DECISION_BYTES; i++)
        bytes[i] = (uint8_t)(record >> (56 - 8 * i));
}
