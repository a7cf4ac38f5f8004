/*
 * second.h - the judging core of the second program (see second.c).
 *
 * "01" is the document that gives the rules.  Every quantity is a whole number
 * in the units of 01: hundredths of a mph, hundredths of a psi, whole feet,
 * hundredths of a percent, hundredths of a degree, whole tons.  The average grade
 * of a walk's step alone is in ten-thousandths of a percent (02, R-11).
 */
#ifndef SECOND_H
#define SECOND_H

#include <stddef.h>
#include <stdint.h>

enum {
    SECOND_CONSIST_BYTES = 16,  /* without its blocks */
    SECOND_BLOCK_BYTES = 4,     /* a record */
    SECOND_PROFILE_BYTES = 6,   /* a record */
    SECOND_TARGET_BYTES = 5,    /* a record */
    SECOND_SAMPLE_BYTES = 20,
    SECOND_DECISION_BYTES = 8,
    SECOND_BOTH_BYTES = 16,     /* a sample's two decisions */
    SECOND_BLOCKS_MOST = 64,    /* records */
    SECOND_PROFILE_LEAST = 2,
    SECOND_PROFILE_MOST = 257,
    SECOND_TARGETS_MOST = 8,
    SECOND_POINTS_MOST = 256,   /* of a falling rear pressure */
    SECOND_NO_STOP = 16777215
};

/* The blocks of a manifest train, head end first; no record is an even spread of weight. */
typedef struct {
    int64_t records;
    int64_t length[SECOND_BLOCKS_MOST], weight[SECOND_BLOCKS_MOST];
} second_blocks;

/* The consist record, which "carries the blocks" (02, R-1). */
typedef struct {
    int64_t cars, axles, weight, length, rated, application, recharge, set, offset;
    second_blocks blocks;
} second_consist;

/* What a lost rear counts as: "the new default", or "the old choice" (02, R-7). */
typedef enum {
    SECOND_FIVE_SECONDS,
    SECOND_EVERLASTING
} second_choice;

/* What the air brakes hold from sample to sample, and the choice that they are opened with. */
typedef struct {
    int64_t state, hold, a, b, equalization, fall, last_front, last_rear, last_time;
    second_choice choice;
    int heard;             /* an accepted sample had a present rear */
    int64_t heard_at;      /* the time of the last such one; 0 for never */
} second_brakes;

/* How far learning the application time has come (02, R-3). */
typedef enum {
    SECOND_WAITING,        /* for the front to fall */
    SECOND_FRONT_FELL,     /* no rear was present since then: no p0 yet */
    SECOND_REAR_KNOWN,     /* there is p0, and no point yet */
    SECOND_REAR_FALLS,     /* there are points */
    SECOND_DONE            /* with a result or without, until the front is up again */
} second_stage;

/* What is recorded for it: the points themselves, t in seconds since the first of them.
 * All zero is waiting. */
typedef struct {
    second_stage stage;
    int64_t fell_at;       /* the time of the sample at which the front fell */
    int64_t p0;
    int64_t t_init;        /* from there to the first point, in seconds */
    int64_t points;
    int64_t t[SECOND_POINTS_MOST], p[SECOND_POINTS_MOST];
} second_learner;

/* Of some points how many they are, and the sums of t, t x t, p and t x p. */
typedef struct {
    int64_t n, t, tt, p, tp;
} second_point_sums;

/* A learner with sums in the place of its points.  What a stage has no use for is 0. */
typedef struct {
    second_stage stage;
    int64_t fell_at, t_init;
    int64_t last_t;        /* the last point's t */
    int64_t pressure;      /* the last point's p; without points p0 */
    second_point_sums sums;
} second_learning;

/* A session.  All zero is "no session is open".  The train's application time is the one in
 * force, typed or learnt. */
typedef struct {
    int open;
    int begun;             /* a sample has been accepted */
    second_consist train;
    second_brakes brakes;
    int64_t cause;         /* 0, or the place of the target that called the penalty */
    int64_t emergency;     /* 0, or the place of the target that called emergency */
    second_learner learner;
} second_session;

/* The profile and the targets, read into numbers. */
typedef struct {
    int64_t records;
    int64_t start[SECOND_PROFILE_MOST], grade[SECOND_PROFILE_MOST], curve[SECOND_PROFILE_MOST];
} second_profile;

typedef struct {
    int64_t records;
    int64_t location[SECOND_TARGETS_MOST], speed[SECOND_TARGETS_MOST];
} second_targets;

/* A sample, its readings in hundredths. */
typedef struct {
    int64_t time, head, speed, front, rear;
    int rear_present;
} second_sample;

/* A decision: the penalty's, or emergency's. */
typedef struct {
    int emergency;         /* which of the two, told by the mark */
    int64_t time, state, penalty, cause, stop;
} second_decision;

/* The air that a walk brakes with.  All zero beyond A and B is the service curve. */
typedef struct {
    int64_t a, b;
    int64_t equalization;  /* emergency's alone: the service curve has its own from A and B */
    int emergency;         /* which of the two curves */
} second_air;

/* What a curve's walks of one sample say. */
typedef struct {
    int64_t stop;          /* SECOND_NO_STOP for none */
    int64_t cause;         /* the first calling target's place, 0 for none */
} second_prediction;

/*
 * Opens a session: 16 bytes, and 4 for each block.  0, or a refusal number (2, 4, 5, 13)
 * with the session as it was.  second_open takes the default, SECOND_FIVE_SECONDS.
 */
int second_open(second_session *session, const unsigned char *bytes, size_t count);
int second_open_with(second_session *session, const unsigned char *bytes, size_t count,
                     second_choice choice);

/*
 * Judges one sample.  0 with the two decisions in the first 16 bytes of output,
 * or a refusal number with the session and the output as they were.
 */
int second_judge(second_session *session,
                 const unsigned char *sample, size_t sample_count,
                 const unsigned char *profile, size_t profile_count,
                 const unsigned char *targets, size_t targets_count,
                 unsigned char *output, size_t output_count);

/* The readers.  0, or 2, 4, 5, 13; 6; 7; 2, 3, 4. */
int second_read_consist(const unsigned char *bytes, size_t count, second_consist *train);
int second_read_profile(const unsigned char *bytes, size_t count, second_profile *profile);
int second_read_targets(const unsigned char *bytes, size_t count, second_targets *targets);
int second_read_decision(const unsigned char *bytes, size_t count, second_decision *decision);

/*
 * The predictions of one sample, the penalty's and emergency's: the brakes already
 * updated, everything already judged.  Each is called from one place only,
 * second_judge.
 */
second_prediction second_predict(const second_session *session, const second_sample *sample,
                                 const second_profile *profile, const second_targets *targets);
second_prediction second_predict_emergency(const second_session *session,
                                           const second_sample *sample,
                                           const second_profile *profile,
                                           const second_targets *targets);

/*
 * Learning, for users that hold sums: what is told of a learner; whether the fall ends with a
 * last point that is so far from the one before, given the sums over all points, this one too;
 * and the time in ms that it teaches, given the sums over the points before it, or 0 for none.
 */
second_learning second_learning_of(const second_learner *learner);
int second_levels_off(const second_point_sums *all, int64_t p_change, int64_t t_change);
int64_t second_learnt_time(const second_point_sums *before, int64_t t_init, int64_t last_p,
                           int64_t equalization);

/* What a sample of 20 bytes is refused for: 1, or 0 for 3 and for 8. */
int second_sample_well_formed(const unsigned char *bytes);
int second_readings_in_range(const unsigned char *bytes);

/* Fields, for users of a record's bytes. */
int64_t second_bits(const unsigned char *bytes, int first, int width);
void second_put_bits(unsigned char *bytes, int first, int width, int64_t value);

#endif
