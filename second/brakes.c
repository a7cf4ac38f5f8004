/*
 * brakes.c - the section "The air brakes, once a sample".
 */

/* "States: 0 charged, 1 applying service, 2 holding service, 3 applying
 * emergency, 4 holding emergency, 5 charging." */
enum {
    SECOND_CHARGED,
    SECOND_APPLYING_SERVICE,
    SECOND_HOLDING_SERVICE,
    SECOND_APPLYING_EMERGENCY,
    SECOND_HOLDING_EMERGENCY,
    SECOND_CHARGING
};

enum {
    SECOND_APPLY_RATE = -100,
    SECOND_APPLY_DROP = 300,
    SECOND_RELEASE_RATE = 100,
    SECOND_EMERGENCY_RATE = -1500
};

/* What a sample counts as, beside what is held. */
typedef struct {
    int64_t elapsed, rate, front, rear, nominal;
} second_counted;

/* --------------------------------------------------------- what is counted */

/* "Nominal = set minus half of (front minus rear), the half down; the
 * difference is 0 where rear is higher, and nominal is not below 0." */
int64_t second_nominal(int64_t set, int64_t front, int64_t rear)
{
    int64_t difference = second_greatest(front - rear, 0);
    return second_greatest(set - difference / 2, 0);
}

/* "A first sample counts rate 0 and 0 seconds elapsed.  Otherwise rate is
 * (front minus last front) divided by the elapsed seconds, down."  A lost rear
 * counts as quiet.c tells. */
second_counted second_count(const second_brakes *brakes, const second_consist *train,
                            const second_sample *sample, int first)
{
    second_counted now = {0, 0, sample->front, sample->rear, 0};
    if (!first) {
        now.elapsed = sample->time - brakes->last_time;
        now.rate = (int64_t)second_down(now.front - brakes->last_front, now.elapsed);
    }
    if (!sample->rear_present)
        now.rear = second_lost_rear(brakes, sample, first);
    now.nominal = second_nominal(train->set, now.front, now.rear);
    return now;
}

/* ------------------------------------------------------------------- tests */

/* "Application means rate below -100 or hold minus front above 300." */
int second_application(const second_brakes *brakes, const second_counted *now)
{
    return now->rate < SECOND_APPLY_RATE || brakes->hold - now->front > SECOND_APPLY_DROP;
}

/* "Release means rate above 100." */
int second_release(const second_counted *now)
{
    return now->rate > SECOND_RELEASE_RATE;
}

/* "Rate is -1,500 or lower": "a fall of 15 psi in a second or faster". */
int second_emergency(int64_t rate)
{
    return rate <= SECOND_EMERGENCY_RATE;
}

/* ------------------------------------------------------------------ changes */

/* "(5A + 2B) / 7", down: the pressure at which reservoir and cylinder are
 * equal in a service application. */
int64_t second_service_equalization(int64_t a, int64_t b)
{
    return (int64_t)second_down(5 * a + 2 * b, 7);
}

/* "Equalization = (5A + 2B + 7 nominal) / 14", down, in an emergency. */
int64_t second_emergency_equalization(int64_t a, int64_t b, int64_t nominal)
{
    return (int64_t)second_down(5 * a + 2 * b + 7 * nominal, 14);
}

/* "Then A = (5A + 7 nominal) / 12", down. */
int64_t second_combined(int64_t a, int64_t nominal)
{
    return (int64_t)second_down(5 * a + 7 * nominal, 12);
}

/* "Start applying."  A itself first falls at the next sample; hold is left
 * (decision 16). */
void second_start_applying(second_brakes *brakes, const second_consist *train,
                           int64_t rate, int64_t nominal)
{
    if (second_emergency(rate)) {
        brakes->equalization = second_emergency_equalization(brakes->a, brakes->b, nominal);
        brakes->a = second_combined(brakes->a, nominal);
        brakes->state = SECOND_APPLYING_EMERGENCY;
        brakes->fall =
            second_greatest((int64_t)second_up(brakes->a - brakes->equalization, 10), 0);
    } else {
        brakes->equalization = second_service_equalization(brakes->a, brakes->b);
        brakes->state = SECOND_APPLYING_SERVICE;
        brakes->fall = (int64_t)second_down(2000 * train->set, 7 * train->application);
    }
}

/* "Start charging: state 5, B = 0, hold = front." */
void second_start_charging(second_brakes *brakes, int64_t front)
{
    brakes->state = SECOND_CHARGING;
    brakes->b = 0;
    brakes->hold = front;
}

/* "A fall lowers A by fall times elapsed, not past the level and never upward;
 * B gains 5/2 of the drop, down, in state 1 and 6 times the drop in state 3." */
void second_fall(second_brakes *brakes, int64_t level, int64_t elapsed)
{
    int64_t drop = second_least(brakes->fall * elapsed, brakes->a - level);
    drop = second_greatest(drop, 0);
    brakes->a -= drop;
    if (brakes->state == SECOND_APPLYING_SERVICE)
        brakes->b += 5 * drop / 2;
    else
        brakes->b += 6 * drop;
}

/* ------------------------------------------------------- each state's rule */

/* "0 and 5: on application, start applying.  Otherwise hold becomes the greater
 * of hold and front; and in 5, if A is at least nominal the state becomes 0,
 * else A becomes the lesser of nominal and A plus recharge times elapsed." */
void second_when_charged_or_charging(second_brakes *brakes, const second_consist *train,
                                     const second_counted *now)
{
    if (second_application(brakes, now)) {
        second_start_applying(brakes, train, now->rate, now->nominal);
        return;
    }
    brakes->hold = second_greatest(brakes->hold, now->front);
    if (brakes->state == SECOND_CHARGED)
        return;
    if (brakes->a >= now->nominal)
        brakes->state = SECOND_CHARGED;
    else
        brakes->a = second_least(now->nominal, brakes->a + train->recharge * now->elapsed);
}

/* "1: if rate is -1,500 or lower, start applying; else on release, start
 * charging; else fall to the greater of equalization and front.  At or below
 * that level afterwards: state 2, hold = front." */
void second_when_applying_service(second_brakes *brakes, const second_consist *train,
                                  const second_counted *now)
{
    if (second_emergency(now->rate)) {
        second_start_applying(brakes, train, now->rate, now->nominal);
    } else if (second_release(now)) {
        second_start_charging(brakes, now->front);
    } else {
        int64_t level = second_greatest(brakes->equalization, now->front);
        second_fall(brakes, level, now->elapsed);
        if (brakes->a <= level) {
            brakes->state = SECOND_HOLDING_SERVICE;
            brakes->hold = now->front;
        }
    }
}

/* "2: on release, start charging; else on application, start applying." */
void second_when_holding_service(second_brakes *brakes, const second_consist *train,
                                 const second_counted *now)
{
    if (second_release(now))
        second_start_charging(brakes, now->front);
    else if (second_application(brakes, now))
        second_start_applying(brakes, train, now->rate, now->nominal);
}

/* "3: fall to equalization; at or below it afterwards, state 4.  No other
 * test." */
void second_when_applying_emergency(second_brakes *brakes, const second_counted *now)
{
    second_fall(brakes, brakes->equalization, now->elapsed);
    if (brakes->a <= brakes->equalization)
        brakes->state = SECOND_HOLDING_EMERGENCY;
}

/* "4: on release, start charging." */
void second_when_holding_emergency(second_brakes *brakes, const second_counted *now)
{
    if (second_release(now))
        second_start_charging(brakes, now->front);
}

/* ------------------------------------------------------------------ a sample */

/* "The air brakes, once a sample." */
void second_update_brakes(second_brakes *brakes, const second_consist *train,
                          const second_sample *sample, int first)
{
    second_counted now = second_count(brakes, train, sample, first);
    switch (brakes->state) {
    case SECOND_CHARGED:
    case SECOND_CHARGING:
        second_when_charged_or_charging(brakes, train, &now);
        break;
    case SECOND_APPLYING_SERVICE:
        second_when_applying_service(brakes, train, &now);
        break;
    case SECOND_HOLDING_SERVICE:
        second_when_holding_service(brakes, train, &now);
        break;
    case SECOND_APPLYING_EMERGENCY:
        second_when_applying_emergency(brakes, &now);
        break;
    case SECOND_HOLDING_EMERGENCY:
        second_when_holding_emergency(brakes, &now);
        break;
    }
    /* "The value so counted is held as last rear." */
    brakes->last_front = now.front;
    brakes->last_rear = now.rear;
    brakes->last_time = sample->time;
    second_hear(brakes, sample);
}
