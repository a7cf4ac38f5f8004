/*
 * counts_learning.c - see counts.h: what samples taught of the application time.
 */
#include "counts.h"

#include <stdio.h>

enum { ENDS = 600, LEAST = 1000, MOST = 240000, CHARGING = 5 };

static bool is_under_way(const second_learning *now)
{
    return now->stage == SECOND_FRONT_FELL || now->stage == SECOND_REAR_KNOWN || now->stage == SECOND_REAR_FALLS;
}

static int64_t time_of(const expected_session *session)
{
    return session->now.brakes.last_time;
}

/* Learning that a release or an emergency ended. */
static void count_cut(const expected_session *before, const expected_session *after)
{
    int64_t state = after->now.brakes.state;
    tried.cut[state != CHARGING] += is_under_way(&before->learning) && after->learning.stage == SECOND_WAITING;
}

/* Learning that ended with its fall: the time that it taught, 0 for none. */
static void count_taught(const expected_session *before, const expected_session *after, bool goes_on)
{
    int64_t rear = after->now.brakes.last_rear, equalization = after->now.brakes.equalization;
    int64_t taught = second_learnt_time(&before->learning.sums, before->learning.t_init, rear, equalization);
    tried.flat += taught == 0 && !expected_is_loose(&before->learning, time_of(after));
    if (!goes_on || taught == 0)
        return;
    tried.taught[rear >= equalization]++;
    tried.at_least += taught == LEAST;
    tried.at_most += taught == MOST;
}

static void count_ended(const expected_session *before, const expected_session *after, bool goes_on)
{
    if (!is_under_way(&before->learning) || after->learning.stage != SECOND_DONE)
        return;
    if (time_of(after) - before->learning.fell_at >= ENDS)
        tried.too_long += goes_on;
    else if (before->learning.sums.n == SECOND_POINTS_MOST)
        tried.too_many += goes_on;
    else
        count_taught(before, after, goes_on);
}

void count_learning(const expected_session *before, const expected_session *after, bool present, bool goes_on)
{
    count_ended(before, after, goes_on);
    if (!goes_on)
        return;
    tried.learning[after->learning.stage]++;
    tried.lost_falling += before->learning.stage == SECOND_REAR_FALLS && !present;
    count_cut(before, after);
}

bool counts_learning_seen(void)
{
    return counts_all_above_0(tried.learning, 5) && counts_all_above_0(tried.taught, 2) && counts_all_above_0(tried.cut, 2)
        && tried.at_least > 0 && tried.at_most > 0 && tried.too_long > 0 && tried.too_many > 0 && tried.lost_falling > 0
        && tried.loose > 0 && tried.flat > 0;
}

void counts_print_learning(void)
{
    printf("; learning, by stage");
    counts_print(tried.learning, 0, 5);
    printf("; taught below equalization %lu, not below it %lu, held at the least time %lu, at the most %lu; without a result by "
           "600 s %lu, by the 257th point %lu, without a slope %lu; rear lost in the fall %lu; cut by a release %lu, by an "
           "emergency %lu; of no run %lu",
           tried.taught[0], tried.taught[1], tried.at_least, tried.at_most, tried.too_long, tried.too_many, tried.flat,
           tried.lost_falling, tried.cut[0], tried.cut[1], tried.loose);
}
