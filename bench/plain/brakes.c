/*
 * brakes.c - the air brakes, once a sample.
 */

static int64_t nominal_of(const plain_consist *train, int64_t front, int64_t rear)
{
    return greatest(train->set - greatest(front - rear, 0) / 2, 0);
}

/* Equalization is taken from A before it is combined. */
static void combine(plain_brakes *brakes, int64_t nominal)
{
    brakes->equalization = (5 * brakes->a + 2 * brakes->b + 7 * nominal) / 14;
    brakes->a = (5 * brakes->a + 7 * nominal) / 12;
}

static void start_applying(plain_brakes *brakes, const plain_consist *train, int64_t rate,
                           int64_t nominal)
{
    if (rate <= -1500) {
        combine(brakes, nominal);
        brakes->state = APPLYING_EMERGENCY;
        brakes->fall = up(greatest(brakes->a - brakes->equalization, 0), 10);
    } else {
        brakes->equalization = (5 * brakes->a + 2 * brakes->b) / 7;
        brakes->state = APPLYING_SERVICE;
        brakes->fall = 2000 * train->set / (7 * train->application);
    }
}

static void start_charging(plain_brakes *brakes, int64_t front)
{
    brakes->state = CHARGING;
    brakes->b = 0;
    brakes->hold = front;
}

/* How far A falls. */
static int64_t fallen(plain_brakes *brakes, int64_t level, int64_t elapsed)
{
    int64_t drop = greatest(least(brakes->fall * elapsed, brakes->a - level), 0);
    brakes->a -= drop;
    return drop;
}

static void recharge(plain_brakes *brakes, int64_t nominal, int64_t gain)
{
    if (brakes->a >= nominal)
        brakes->state = CHARGED;
    else
        brakes->a = least(nominal, brakes->a + gain);
}

static void fall_in_service(plain_brakes *brakes, int64_t front, int64_t elapsed)
{
    int64_t level = greatest(brakes->equalization, front);
    brakes->b += 5 * fallen(brakes, level, elapsed) / 2;
    if (brakes->a <= level) {
        brakes->state = HOLDING_SERVICE;
        brakes->hold = front;
    }
}

static void fall_in_emergency(plain_brakes *brakes, int64_t elapsed)
{
    brakes->b += 6 * fallen(brakes, brakes->equalization, elapsed);
    if (brakes->a <= brakes->equalization)
        brakes->state = HOLDING_EMERGENCY;
}

static int64_t rear_counted(const plain_brakes *brakes, const sample_read *sample)
{
    if (sample->rear_present)
        return sample->rear;
    return sample->time - brakes->last_heard <= KEPT_SECONDS ? brakes->last_rear : sample->front;
}

static void update_brakes(plain_brakes *brakes, const plain_consist *train,
                          const sample_read *sample, bool begun)
{
    int64_t front = sample->front;
    int64_t elapsed = begun ? sample->time - brakes->last_time : 0;
    int64_t rate = begun ? down(front - brakes->last_front, elapsed) : 0;
    int64_t rear = rear_counted(brakes, sample);
    int64_t nominal = nominal_of(train, front, rear);
    bool application = rate < -100 || brakes->hold - front > 300;
    bool release = rate > 100;

    switch (brakes->state) {
    case CHARGED:
    case CHARGING:
        if (application) {
            start_applying(brakes, train, rate, nominal);
        } else {
            brakes->hold = greatest(brakes->hold, front);
            if (brakes->state == CHARGING)
                recharge(brakes, nominal, train->recharge * elapsed);
        }
        break;
    case APPLYING_SERVICE:
        if (rate <= -1500)
            start_applying(brakes, train, rate, nominal);
        else if (release)
            start_charging(brakes, front);
        else
            fall_in_service(brakes, front, elapsed);
        break;
    case HOLDING_SERVICE:
        if (release)
            start_charging(brakes, front);
        else if (application)
            start_applying(brakes, train, rate, nominal);
        break;
    case APPLYING_EMERGENCY:
        fall_in_emergency(brakes, elapsed);
        break;
    case HOLDING_EMERGENCY:
        if (release)
            start_charging(brakes, front);
        break;
    }
    brakes->last_front = front;
    brakes->last_rear = rear;
    brakes->last_time = sample->time;
    if (sample->rear_present)
        brakes->last_heard = sample->time;
}
