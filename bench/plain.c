/*
 * plain.c - the rules of documents 01 and 02 in plain C, as fast as the direct way
 * is: one walk finds the stop and every target's location, a second one is made
 * only where a penalty stands or is called, averages come of running totals, each
 * block's end is looked for from where it was last, of the points that teach an application
 * time the sums are kept, numbers are 64 bits wide but for one quotient.  second/ says each rule's phrase; here they stand without it.
 *
 * Its parts stand in files of their own, each of which uses those before it; this
 * one file has them all.
 */
#include "plain.h"

#include <string.h>

enum {
    CONSIST_BYTES = 16,
    BLOCK_BYTES = 4,
    PROFILE_BYTES = 6,
    TARGET_BYTES = 5,
    SAMPLE_BYTES = 20,
    DECISION_BYTES = 8,
    BOTH_BYTES = 16,
    RECORDS = 257,
    TARGETS = 8,
    LAST_FOOT = 4000000,
    STEPS = 2048,
    STEP_FEET = 16,
    REACH = STEPS * STEP_FEET,
    NO_STOP = 16777215,
    KEPT_SECONDS = 5,         /* how long a lost rear counts as the last present one */
    NEVER = -1 - KEPT_SECONDS, /* a time that every sample's is further from */
    THREE_PSI = 300,
    LEARNING_SECONDS = 600,   /* since the front fell */
    POINTS = 256,
    JUDGED_POINTS = 4
};

enum { WAITING, FRONT_FELL, REAR_KNOWN, REAR_FALLS, DONE };

enum { CHARGED, APPLYING_SERVICE, HOLDING_SERVICE, APPLYING_EMERGENCY, HOLDING_EMERGENCY, CHARGING };

typedef struct {
    int records;
    uint32_t start[RECORDS];
    int16_t grade[RECORDS];
    uint16_t curve[RECORDS];
    int64_t grade_total[RECORDS], curve_total[RECORDS]; /* x feet, of the records before */
} profile_read;

typedef struct {
    int records;
    uint32_t location[TARGETS];
    uint16_t speed[TARGETS];
} targets_read;

typedef struct {
    int64_t time, head, speed, front, rear;
    bool rear_present;
} sample_read;

typedef struct {
    int64_t stop;
    int64_t location[TARGETS];
} prediction;

/* Cylinder pressure over the clock: base + gain / 2 x the lesser of slope x t / per and most. */
typedef struct {
    int64_t base, gain, slope, per, most;
} brake_curve;

#include "plain/numbers.c"
#include "plain/records.c"
#include "plain/brakes.c"
#include "plain/learn.c"
#include "plain/walk.c"
#include "plain/session.c"
