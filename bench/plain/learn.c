/*
 * learn.c - the application time, learnt from the rear pressure in a service application.
 */

static int64_t slope_of(const plain_learner *l)
{
    return l->n * l->tp - l->t * l->p;
}

static int64_t spread_of(const plain_learner *l)
{
    return l->n * l->tt - l->t * l->t;
}

/* In ms, of points that fall. */
static int64_t learnt_time(const plain_learner *l, int64_t rear, int64_t equalization)
{
    int64_t m = slope_of(l), z = spread_of(l);
    int64_t above = l->tt * l->p - l->t * l->tp - equalization * z;
    int64_t fall = rear >= equalization ? 933 * z - 110 * m : -100 * m;
    __int128 scaled = (__int128)100000 * above, quotient = scaled / fall;
    int64_t time = 1000 * (l->init + 1) + (int64_t)quotient + (scaled % fall > 0);
    return greatest(least(time, 240000), 1000);
}

static bool levels_off(const plain_learner *l, int64_t fall, int64_t seconds)
{
    return l->n >= JUDGED_POINTS && 2 * fall * spread_of(l) < seconds * -slope_of(l);
}

static void add_point(plain_learner *l, int64_t t, int64_t p)
{
    l->n += 1;
    l->t += t;
    l->tt += t * t;
    l->p += p;
    l->tp += t * p;
    l->last = t;
    l->pressure = p;
}

static void fall_further(plain_learner *l, plain_consist *train, int64_t equalization,
                         const sample_read *sample)
{
    plain_learner more = *l;
    if (l->n == POINTS) {
        *l = (plain_learner){ .stage = DONE };
        return;
    }
    add_point(&more, sample->time - l->fell - l->init, sample->rear);
    if (levels_off(&more, l->pressure - sample->rear, more.last - l->last)) {
        train->application = learnt_time(l, sample->rear, equalization);
        more = (plain_learner){ .stage = DONE };
    }
    *l = more;
}

static void learn_from_rear(plain_learner *l, plain_consist *train, int64_t equalization,
                            const sample_read *sample)
{
    if (l->stage == FRONT_FELL) {
        l->stage = REAR_KNOWN;
        l->pressure = sample->rear;
    } else if (l->stage == REAR_FALLS) {
        if (sample->rear < l->pressure)
            fall_further(l, train, equalization, sample);
    } else if (sample->rear <= l->pressure - THREE_PSI) {
        l->stage = REAR_FALLS;
        l->init = sample->time - l->fell;
        add_point(l, 0, sample->rear);
    }
}

static void learn(plain_learner *l, plain_consist *train, const plain_brakes *brakes,
                  const sample_read *sample)
{
    bool fallen = sample->front <= train->set - THREE_PSI;
    if (brakes->state != APPLYING_SERVICE && brakes->state != HOLDING_SERVICE) {
        *l = (plain_learner){ .stage = WAITING };
        return;
    }
    if (l->stage == DONE) {
        l->stage = fallen ? DONE : WAITING;
        return;
    }
    if (l->stage == WAITING) {
        if (!fallen)
            return;
        l->stage = FRONT_FELL;
        l->fell = sample->time;
    } else if (sample->time - l->fell >= LEARNING_SECONDS) {
        *l = (plain_learner){ .stage = DONE };
        return;
    }
    if (sample->rear_present)
        learn_from_rear(l, train, brakes->equalization, sample);
}
