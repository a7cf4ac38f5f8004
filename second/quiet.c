/*
 * quiet.c - R-7 of 02: what a lost rear counts as when the rear device goes quiet.
 */

enum { SECOND_KEPT = 5 };            /* seconds */

/* "More than 5 seconds have passed since the last present value, or there was none yet":
 * whether neither is so.  Exactly 5 is not more (decision 148). */
int second_recent(const second_brakes *brakes, int64_t time)
{
    return brakes->heard && time <= brakes->heard_at + SECOND_KEPT;
}

/* Whether "a lost rear counts as the last rear": by the old choice everywhere but "in the
 * first sample" (01). */
int second_counts_as_last(const second_brakes *brakes, int64_t time, int first)
{
    if (brakes->choice == SECOND_EVERLASTING)
        return !first;
    return second_recent(brakes, time);
}

/* Else "a lost rear counts as equal to front": this sample's own, at each such sample anew.
 * As long as a value is kept, last rear is that value (decision 149). */
int64_t second_lost_rear(const second_brakes *brakes, const second_sample *sample, int first)
{
    return second_counts_as_last(brakes, sample->time, first) ? brakes->last_rear : sample->front;
}

/* "The last present value": a lost rear is not heard.  Its time is held under either
 * choice (decision 150). */
void second_hear(second_brakes *brakes, const second_sample *sample)
{
    if (!sample->rear_present)
        return;
    brakes->heard = 1;
    brakes->heard_at = sample->time;
}
