/*
 * counts.h - what was tried, and what of it occurred.
 */
#ifndef COUNTS_H
#define COUNTS_H

#include "expected.h"

/* Values of `everlasting`: 0, 1, and such as a narrower type or a test for 1 takes for 0. */
enum { CHOICES = 7 };
extern const uint32_t choices[CHOICES];

/* A lost rear, by when the last present one was: none yet, in the first sample and later; so many seconds ago. */
enum { LOST_FIRST, LOST_NONE_YET, LOST_TO_4, LOST_5, LOST_6, LOST_LONGER, LOSSES };

/* Samples are counted that were accepted, where nothing else is said. */
typedef struct {
    unsigned long calls, faults;
    unsigned long answers[14]; /* of sample calls */
    unsigned long openings[14];
    unsigned long openings_with[14];
    unsigned long chosen[CHOICES]; /* sessions opened with each value */
    unsigned long states[6];
    unsigned long unstopped;       /* without a stop */
    unsigned long called[6];       /* that called emergency, by state */
    unsigned long sped_up;         /* that stop, and called the penalty for a target that allows their speed */
    /* what follows, of sessions that go on */
    unsigned long in_blocks;       /* of trains with blocks */
    unsigned long otherwise;       /* of these, decided otherwise than an even spread of the weight would be */
    unsigned long lost[2][LOSSES]; /* a lost rear, by default and for ever */
    unsigned long given_up[6];     /* of these, such as count front under the default, by state */
    unsigned long parted[2];       /* decided otherwise than under the other choice */
    unsigned long learning[5];     /* by the stage that it leaves */
    unsigned long taught[2];       /* that taught a time: its rear is below equalization, or not */
    unsigned long at_least, at_most; /* of these, held at the ends of the range */
    unsigned long too_long, too_many; /* that ended learning by 600 seconds, by the 257th point */
    unsigned long lost_falling;    /* a lost rear, and points before it */
    unsigned long cut[2];          /* learning cut by a release, by an emergency */
    /* of any session */
    unsigned long loose;           /* no run leaves what was learnt there, and nothing says what follows */
    unsigned long flat;            /* learning ended without a result, by sums of a line that does not fall */
} tally;

extern tally tried;

/* An accepted sample call: what it was lent, and what it wrote. */
typedef struct {
    part before, sample, profile, targets;
    const uint8_t *after, *decisions;
} accepted;

void count_choice(unsigned answer, uint32_t everlasting);
void count_accepted(const accepted *call, bool goes_on);

/* What a sample taught, of which the sessions before and after are given. */
void count_learning(const expected_session *before, const expected_session *after, bool present, bool goes_on);

/* Whether each of R-7's cases occurred, and how often; and of R-3's. */
bool counts_rears_seen(void);
void counts_print_rears(void);
bool counts_learning_seen(void);
void counts_print_learning(void);

bool counts_all_above_0(const unsigned long *counts, int count);

/* " PLACE:COUNT" for each count that is not 0, from place `first` to before `end`. */
void counts_print(const unsigned long *counts, int first, int end);

#endif
