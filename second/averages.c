/*
 * averages.c - the section "The walk": G and C, what lies under the train on the average, by an
 * even spread of its weight or by the blocks of R-1 of 02.
 */

/* "The average grade is to come back in ten-thousandths of a percent, still down, and
 * the force takes 2,000 W G in place of 200,000 W G.  Profile records keep hundredths"
 * (02, R-11).  SECOND_GRADE_UNITS of G are a hundredth, and each is SECOND_GRADE_FORCE
 * millionths of a lb a ton. */
#ifndef SECOND_HUNDREDTHS
enum { SECOND_GRADE_UNITS = 100, SECOND_GRADE_FORCE = 2000 };
#else
enum { SECOND_GRADE_UNITS = 1, SECOND_GRADE_FORCE = 200000 };      /* document 01 alone */
#endif

/* Grade and curvature of a stretch: their sums over its feet, a block's shares, or averages. */
typedef struct {
    int64_t grade, curve;
} second_ground;

/* "The sums of grade x feet and curvature x feet", from `rear` to `head`. */
second_ground second_sums(const second_profile *profile, int64_t rear, int64_t head)
{
    second_ground sums = {0, 0};
    for (int64_t i = 0; i + 1 < profile->records; i++) {
        int64_t from = second_greatest(profile->start[i], rear);
        int64_t to = second_least(profile->start[i + 1], head);
        if (to > from) {
            sums.grade += profile->grade[i] * (to - from);
            sums.curve += profile->curve[i] * (to - from);
        }
    }
    return sums;
}

/* "Train from head minus length to head.  G and C are the sums of grade x feet
 * and curvature x feet under the train, over its length, each down."  G's unit is
 * taken on the sum, before the one division there is (decision 130). */
second_ground second_even_averages(const second_profile *profile, int64_t head, int64_t length)
{
    second_ground sums = second_sums(profile, head - length, head);
    second_ground averages = {(int64_t)second_down(SECOND_GRADE_UNITS * sums.grade, length),
                              (int64_t)second_down(sums.curve, length)};
    return averages;
}

/* "A block's share is its weight x its sum under the block / its length, down" (02, R-1).
 * G's unit is on the sum here too, before the share is rounded (decision 138). */
second_ground second_share(const second_profile *profile, int64_t head, int64_t length,
                           int64_t weight)
{
    second_ground sums = second_sums(profile, head - length, head);
    second_ground share = {(int64_t)second_down(weight * SECOND_GRADE_UNITS * sums.grade, length),
                           (int64_t)second_down(weight * sums.curve, length)};
    return share;
}

/* "The shares' total over the train's weight is again rounded down" (02, R-1).  "Head end
 * first": a block reaches back by its length from where the one before it ends (decision
 * 137). */
second_ground second_averages_by_weight(const second_profile *profile, int64_t head,
                                        const second_consist *train)
{
    const second_blocks *blocks = &train->blocks;
    second_ground total = {0, 0};
    for (int64_t i = 0; i < blocks->records; i++) {
        second_ground share = second_share(profile, head, blocks->length[i], blocks->weight[i]);
        total.grade += share.grade;
        total.curve += share.curve;
        head -= blocks->length[i];
    }
    second_ground averages = {(int64_t)second_down(total.grade, train->weight),
                              (int64_t)second_down(total.curve, train->weight)};
    return averages;
}

/* With -DSECOND_EVENLY blocks are judged and then left out of account, as where there are
 * none: an even spread, for comparison (decision 143). */
#ifndef SECOND_EVENLY
enum { SECOND_WEIGHED = 1 };
#else
enum { SECOND_WEIGHED = 0 };
#endif

/* "Grade and curvature are then averaged by weight" (02, R-1): where there are blocks. */
second_ground second_averages(const second_profile *profile, int64_t head,
                              const second_consist *train)
{
    if (!SECOND_WEIGHED || train->blocks.records == 0)
        return second_even_averages(profile, head, train->length);
    return second_averages_by_weight(profile, head, train);
}
