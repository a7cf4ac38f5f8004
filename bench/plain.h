/*
 * plain.h - the rules of documents 01 and 02 in plain C, for the bench to compare with.
 *
 * The calls are those of the archive; the session is a struct, as a C program
 * would hold it.
 */
#ifndef PLAIN_H
#define PLAIN_H

#include <stdbool.h>
#include <stddef.h>
#include <stdint.h>

enum { PLAIN_BLOCKS = 64 };

/* Without a block the weight is spread evenly. */
typedef struct {
    int64_t cars, axles, weight, length, rated, application, recharge, set, offset;
    int blocks;
    uint16_t block_length[PLAIN_BLOCKS], block_weight[PLAIN_BLOCKS]; /* head end first */
} plain_consist;

typedef struct {
    int state;
    int64_t hold, a, b, equalization, fall, last_front, last_rear, last_time;
    int64_t last_heard; /* the time of the last present rear */
} plain_brakes;

/* How far learning the application time is: of the falling rear's points, their sums. */
typedef struct {
    int stage;
    int64_t fell;         /* when the front fell */
    int64_t init, last;   /* seconds from there to the first point, and from that to the last one */
    int64_t pressure;     /* the rear's at the fall, then the last point's */
    int64_t n, t, tt, p, tp;
} plain_learner;

/* All zero is "no session is open".  The train's application time is the one in force. */
typedef struct {
    bool open, begun;
    plain_consist train;
    plain_brakes brakes;
    plain_learner learner;
    int cause, emergency;
} plain_session;

/* 0, or a refusal's number with everything as it was. */
int plain_open(plain_session *session, const uint8_t *consist, size_t count);
int plain_sample(plain_session *session, const uint8_t *sample, size_t sample_count,
                 const uint8_t *profile, size_t profile_count,
                 const uint8_t *targets, size_t target_count,
                 uint8_t *decision, size_t decision_count);

#endif
