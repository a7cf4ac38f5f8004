/*
 * walk.c - the walk along a brake curve, and which targets call.
 */

/* Grade and curvature: x feet up to a location, or averages under the train. */
typedef struct {
    int64_t grade, curve;
} ground;

/* The totals up to a location, which is looked for from where it was last; it is not before the profile. */
static ground totals(const profile_read *profile, int64_t location, size_t *near)
{
    size_t k = *near;
    while (k > 0 && profile->start[k] > location)
        k--;
    while (k + 1 < (size_t)profile->records && profile->start[k + 1] <= location)
        k++;
    int64_t feet = location - profile->start[k];
    *near = k;
    return (ground){ profile->grade_total[k] + profile->grade[k] * feet,
                     profile->curve_total[k] + profile->curve[k] * feet };
}

/* Evenly. */
static ground under_train(const profile_read *profile, const plain_consist *train, int64_t head,
                          size_t *near)
{
    ground ahead = totals(profile, head, &near[0]);
    ground behind = totals(profile, head - train->length, &near[1]);
    return (ground){ down(100 * (ahead.grade - behind.grade), train->length),
                     (ahead.curve - behind.curve) / train->length };
}

/* By weight: what lies under each block, from the head on. */
static ground under_blocks(const profile_read *profile, const plain_consist *train, int64_t head,
                           size_t *near)
{
    ground shares = { 0, 0 }, ahead = totals(profile, head, &near[0]);
    for (int i = 0; i < train->blocks; i++) {
        int64_t length = train->block_length[i], weight = train->block_weight[i];
        head -= length;
        ground behind = totals(profile, head, &near[i + 1]);
        shares.grade += down(100 * weight * (ahead.grade - behind.grade), length);
        shares.curve += weight * (ahead.curve - behind.curve) / length;
        ahead = behind;
    }
    return (ground){ down(shares.grade, train->weight), shares.curve / train->weight };
}

/* `near` has the records that the ends of train or blocks were in last, from head to rear. */
static ground under_head(const profile_read *profile, const plain_consist *train, int64_t head,
                         size_t *near)
{
    return train->blocks == 0 ? under_train(profile, train, head, near)
                              : under_blocks(profile, train, head, near);
}

static brake_curve service_curve(const plain_consist *train, const plain_brakes *brakes)
{
    int64_t a = brakes->a, b = brakes->b;
    return (brake_curve){ b, 5, 2 * train->set, 7 * train->application, greatest(a - (5 * a + 2 * b) / 7, 0) };
}

/* In states 3 and 4 A and equalization are as held; else of brakes that start emergency here. */
static brake_curve emergency_curve(const plain_consist *train, const plain_brakes *brakes)
{
    plain_brakes applied = *brakes;
    if (brakes->state != APPLYING_EMERGENCY && brakes->state != HOLDING_EMERGENCY)
        combine(&applied, nominal_of(train, brakes->last_front, brakes->last_rear));
    int64_t most = greatest(applied.a - applied.equalization, 0);
    return (brake_curve){ applied.b, 12, most, 10000, most };
}

static int64_t brake_force(const plain_consist *train, const brake_curve *by, int64_t t)
{
    int64_t drop = least(by->slope * t / by->per, by->most);
    return train->rated * (by->base + by->gain * drop / 2) / 6400;
}

static int64_t loss(const plain_consist *train, int64_t force, int64_t s, int64_t q, int64_t grade,
                    int64_t curve)
{
    int64_t weight = train->weight;
    int64_t opposing = 1000000 * force + 600000 * weight + 20000000 * train->axles
        + 100 * weight * s + 7 * train->cars * q + 2000 * weight * grade + 8000 * weight * curve;
    return down(1449 * opposing, 605000 * weight);
}

/* Open where the train is above the target's speed, though it was below before. */
static int64_t marked(int64_t location, int64_t speed, int64_t head, int64_t q)
{
    if (q > speed * speed)
        return NO_STOP;
    return location == NO_STOP ? head : location;
}

/* One walk: the stop, and from where on the train stays at or below each target speed.  A walk that
 * is cut has none of them. */
static void predict(const plain_consist *train, const brake_curve *by, const sample_read *sample,
                    const profile_read *profile, const targets_read *targets, prediction *found)
{
    int64_t head = sample->head, q = sample->speed * sample->speed, t = 0;
    size_t near[PLAIN_BLOCKS + 1] = { 0 };

    for (int i = 0; i < targets->records; i++)
        found->location[i] = NO_STOP;
    for (int step = 0;; step++) {
        for (int i = 0; i < targets->records; i++)
            found->location[i] = marked(found->location[i], targets->speed[i], head, q);
        if (q <= 0 || step == STEPS)
            break;
        int64_t s = root(q);
        ground under = under_head(profile, train, head, near);
        q -= loss(train, brake_force(train, by, t), s, q, under.grade, under.curve);
        t += 12000000 / (11 * s);
        head += STEP_FEET;
    }
    found->stop = q <= 0 ? head : NO_STOP;
    for (int i = 0; q > 0 && i < targets->records; i++)
        found->location[i] = NO_STOP;
}

static int64_t target_offset(int64_t offset, int64_t v, int64_t u)
{
    return v <= u ? 0 : up(offset * (v * v - u * u), v * v);
}

static bool judged(const sample_read *sample, int64_t target)
{
    return target >= sample->head && target <= sample->head + REACH;
}

/* The first target that calls the penalty, from 1; 0 for none. */
static int called(const plain_session *session, const sample_read *sample,
                  const targets_read *targets, const prediction *found)
{
    for (int i = 0; i < targets->records; i++) {
        int64_t target = targets->location[i];
        int64_t offset = target_offset(session->train.offset, sample->speed, targets->speed[i]);
        if (judged(sample, target) && found->location[i] + offset > target)
            return i + 1;
    }
    return 0;
}

/* The first that calls emergency: no stop is a number past every target. */
static int emergency_called(const sample_read *sample, const targets_read *targets, int64_t stop)
{
    for (int i = 0; i < targets->records; i++)
        if (judged(sample, targets->location[i]) && targets->speed[i] == 0
            && stop >= targets->location[i])
            return i + 1;
    return 0;
}
